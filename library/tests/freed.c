/*
 * A call by an object that was destroyed, `freed 0` to `freed 3`: in a library that is compiled with YZ_CHECKED it ends
 * the process, and says which call it was.
 */
#include "check.h"
#include "yuzuratchet_device.h"

int main(int count, char **words) {
    yz_device *device;
    yz_context *context;
    yz_list *list;
    CHECK(count == 2);
    CHECK(yz_device_create(&(yz_device_desc)YZ_DEVICE_DESC(8, 8), &device) == YZ_OK);
    CHECK(yz_context_create(&context) == YZ_OK && yz_context_finish(context, 0, &list) == YZ_OK);
    CHECK(yz_device_execute(device, list, 1) == YZ_OK && yz_device_clear_color(device, 1, 2, 3, 4) == YZ_OK);
    switch (atoi(words[1])) {
        case 0: yz_list_destroy(list); return (int)yz_device_execute(device, list, 1);
        case 1: yz_device_destroy(device); yz_device_destroy(device); return 0;
        case 2: return (int)yz_device_flush((yz_device *)(void *)context);
        case 3: yz_context_destroy(context); return (int)yz_context_draw(context, 3, 0);
        default: break;
    }
    yz_list_destroy(list), yz_context_destroy(context), yz_device_destroy(device);
    return 0;
}
