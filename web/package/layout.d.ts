/** Places and numbers of what the module tells, which the build writes. */
export const LAYOUT: {
    statuses: Record<string, { number: number; text: string }>;
    report: Record<string, number>;
    event: Record<string, number>;
    history_report: Record<string, number>;
};
