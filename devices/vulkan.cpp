// Plays a script by a device of Vulkan 1.3: vulkan SCRIPT OUT.tga [--planes FILE] [--device N] [--float-depth]
#include "vulkan_device.h"

#include <bit>
#include <cmath>

using namespace adapter;

namespace {

constexpr std::uint32_t queries = 64;
constexpr auto both_faces = vk::StencilFaceFlagBits::eFrontAndBack;

// Vulkan counts comparisons and operations from 0, in Direct3D's order.
vk::CompareOp comparison(std::int64_t number) { return static_cast<vk::CompareOp>(number - 1); }
vk::StencilOp operation(std::int64_t number) { return static_cast<vk::StencilOp>(number - 1); }

class VulkanRenderer : public Renderer {
public:
    VulkanRenderer(const Script& script, const Options& options, double unit_of_bias = 1)
        : unit_of_bias_(unit_of_bias), script_(script), device_(script, options), pipelines_(device_),
          colour_(device_, script, colour_format, colour_range, vk::ImageUsageFlagBits::eColorAttachment),
          tests_(device_, script, device_.depth_format, tests_range, vk::ImageUsageFlagBits::eDepthStencilAttachment),
          pool_(device_.logical, {.flags = vk::CommandPoolCreateFlagBits::eResetCommandBuffer}),
          commands_(std::move(vk::raii::CommandBuffers(device_.logical, {.commandPool = *pool_,
                                                                         .commandBufferCount = 1}).front())),
          counting_(device_.logical, {.queryType = vk::QueryType::eOcclusion, .queryCount = queries}) {
        if (has_predicate(script))
            predicates_.emplace(device_, 4 * queries, vk::BufferUsageFlagBits::eConditionalRenderingEXT);
        commands_.begin({.flags = vk::CommandBufferUsageFlagBits::eOneTimeSubmit});
        barrier(vk::ImageLayout::eUndefined);
        commands_.clearColorImage(*colour_.image, layout, vk::ClearColorValue{}, colour_range);
        commands_.clearDepthStencilImage(*tests_.image, layout, {1, 0}, tests_range);
        submit();
    }

    void draw(const State& state, const Command& command) override {
        predicated(state, [&] {
            set(state, state.cuts(command));
            commands_.bindVertexBuffers(0, buffer_of(*state.vertices), vk::DeviceSize{0});
            if (command.word == Word::draw) return commands_.draw(whole(command.at(0)), 1, whole(command.at(1)), 0);
            commands_.bindIndexBuffer(buffer_of(*state.indices), 0, vk::IndexType::eUint16);
            commands_.drawIndexed(whole(command.at(0)), 1, whole(command.at(1)), static_cast<int>(command.at(2)), 0);
        });
    }

    void clear(const State& state, const Command& command) override {
        vk::ClearAttachment what{.aspectMask = tests_aspect};
        if (command.word == Word::cleards) {
            what.clearValue.depthStencil = vk::ClearDepthStencilValue{depth_of(command.at(0)), whole(command.at(1))};
        } else {
            what.aspectMask = vk::ImageAspectFlagBits::eColor;
            what.clearValue.color.setUint32(
                {whole(command.at(0)), whole(command.at(1)), whole(command.at(2)), whole(command.at(3))});
        }
        const vk::ClearRect where{.rect = {{}, {script_.width, script_.height}}, .layerCount = 1};
        predicated(state, [&] { commands_.clearAttachments(what, where); });
    }

    void begin(int query) override {
        open();
        commands_.beginQuery(*counting_, whole(issues_.size()), vk::QueryControlFlagBits::ePrecise);
        issues_.push_back(query);
    }

    void end(int) override { commands_.endQuery(*counting_, whole(issues_.size() - 1)); }

    void run() override {
        if (!std::exchange(is_open_, false)) return;
        commands_.endRendering();
        submit();
        for (std::uint32_t at = 0; at < issues_.size(); at++)
            counts_.at(issues_[at]) = counting_.getResult<std::uint64_t>(
                at, 1, 8, vk::QueryResultFlagBits::e64 | vk::QueryResultFlagBits::eWait).second;
        issues_.clear();
    }

    std::uint64_t count(int query) override { return counts_.at(query); }

    Pixels read(std::uint32_t x, std::uint32_t y, std::uint32_t width, std::uint32_t height) override {
        const std::size_t count = std::size_t{width} * height;
        const Buffer copy(device_, 9 * count, vk::BufferUsageFlagBits::eTransferDst);
        commands_.begin({.flags = vk::CommandBufferUsageFlagBits::eOneTimeSubmit});
        const auto ask = [&](vk::Image image, vk::ImageAspectFlagBits aspect, vk::DeviceSize offset) {
            commands_.copyImageToBuffer(image, layout, *copy.buffer, vk::BufferImageCopy{
                .bufferOffset = offset, .imageSubresource = {aspect, 0, 0, 1},
                .imageOffset = {static_cast<int>(x), static_cast<int>(y), 0}, .imageExtent = {width, height, 1}});
        };
        ask(*colour_.image, vk::ImageAspectFlagBits::eColor, 0);
        ask(*tests_.image, vk::ImageAspectFlagBits::eDepth, 4 * count);
        ask(*tests_.image, vk::ImageAspectFlagBits::eStencil, 8 * count);
        submit();
        Pixels pixels(count);
        const auto* bytes = static_cast<const std::uint8_t*>(copy.data);
        for (std::size_t at = 0; at < count; at++) {
            std::memcpy(pixels[at].colour.data(), bytes + 4 * at, 4);
            std::memcpy(&pixels[at].depth, bytes + 4 * (count + at), 4);
            if (device_.depth_format == vk::Format::eD32SfloatS8Uint)
                pixels[at].depth = whole(std::lround(double{std::bit_cast<float>(pixels[at].depth)} * deepest));
            pixels[at].depth &= deepest;
            pixels[at].stencil = bytes[8 * count + at];
        }
        return pixels;
    }

private:
    void set(const State& state, bool cuts) {
        const auto part = [&](int at) { return whole(state.scissor.at(at)); };
        vk::Rect2D inside{{}, {script_.width, script_.height}};
        if (state.raster[2] != 0)
            inside = vk::Rect2D{{static_cast<int>(part(0)), static_cast<int>(part(1))},
                                {part(2) - part(0), part(3) - part(1)}};
        commands_.bindPipeline(vk::PipelineBindPoint::eGraphics, pipelines_.of(state.blend));
        commands_.setScissor(0, inside);
        commands_.setPrimitiveTopology(state.topology == list_of_triangles ? vk::PrimitiveTopology::eTriangleList
                                                                           : vk::PrimitiveTopology::eTriangleStrip);
        commands_.setPrimitiveRestartEnable(cuts);
        commands_.setCullMode(vk::CullModeFlags(whole(state.raster[0] - 1)));
        commands_.setFrontFace(state.raster[1] != 0 ? vk::FrontFace::eCounterClockwise : vk::FrontFace::eClockwise);
        commands_.setDepthBiasEnable(state.raster[3] != 0);
        commands_.setDepthBias(static_cast<float>(static_cast<double>(state.raster[3]) / unit_of_bias_), 0, 0);
        const auto& tests = state.tests;
        commands_.setDepthTestEnable(tests[0] != 0);
        commands_.setDepthWriteEnable(tests[1] != 0);
        commands_.setDepthCompareOp(comparison(tests[2]));
        commands_.setStencilTestEnable(tests[3] != 0);
        commands_.setStencilCompareMask(both_faces, whole(tests[4]));
        commands_.setStencilWriteMask(both_faces, whole(tests[5]));
        commands_.setStencilReference(both_faces, whole(tests[14]));
        for (const int at : {6, 10})
            commands_.setStencilOp(at == 6 ? vk::StencilFaceFlagBits::eFront : vk::StencilFaceFlagBits::eBack,
                                   operation(tests.at(at)), operation(tests.at(at + 2)), operation(tests.at(at + 1)),
                                   comparison(tests.at(at + 3)));
    }

    template <typename Task>
    void predicated(const State& state, Task task) {
        open();
        if (!state.predicate) return task();
        const auto [query, value] = *state.predicate;
        // (left out where the result is `value`)
        vk::ConditionalRenderingBeginInfoEXT condition{
            .buffer = *predicates_->buffer, .offset = 4 * static_cast<vk::DeviceSize>(query)};
        if (value != 0) condition.flags = vk::ConditionalRenderingFlagBitsEXT::eInverted;
        commands_.beginConditionalRenderingEXT(condition);
        task();
        commands_.endConditionalRenderingEXT();
    }

    // Begins what runs together: results of queries before it are those of its predicates.
    void open() {
        if (std::exchange(is_open_, true)) return;
        for (std::size_t query = 0; predicates_ && query < queries; query++)
            static_cast<std::uint32_t*>(predicates_->data)[query] = counts_.at(query) > 0;
        commands_.begin({.flags = vk::CommandBufferUsageFlagBits::eOneTimeSubmit});
        commands_.resetQueryPool(*counting_, 0, queries);
        const vk::RenderingAttachmentInfo colour{.imageView = *colour_.view, .imageLayout = layout,
                                                 .loadOp = vk::AttachmentLoadOp::eLoad};
        const vk::RenderingAttachmentInfo tests{.imageView = *tests_.view, .imageLayout = layout,
                                                .loadOp = vk::AttachmentLoadOp::eLoad};
        commands_.beginRendering({.renderArea = {{}, {script_.width, script_.height}}, .layerCount = 1,
                                  .colorAttachmentCount = 1, .pColorAttachments = &colour,
                                  .pDepthAttachment = &tests, .pStencilAttachment = &tests});
    }

    vk::Buffer buffer_of(const Command& command) {
        if (const auto found = buffers_.find(&command); found != buffers_.end()) return *found->second.buffer;
        const auto vertices = vertices_of(command);
        const auto indices = indices_of(command);
        const bool is_vb = command.word == Word::vb;
        const std::size_t size = is_vb ? vertices.size() * sizeof(Vertex) : indices.size() * 2;
        const auto usage = vk::BufferUsageFlagBits::eVertexBuffer | vk::BufferUsageFlagBits::eIndexBuffer;
        const Buffer& made = buffers_.try_emplace(&command, device_, size, usage).first->second;
        std::memcpy(made.data, is_vb ? static_cast<const void*>(vertices.data()) : indices.data(), size);
        return *made.buffer;
    }

    void barrier(vk::ImageLayout from = layout) {
        const auto all = vk::AccessFlagBits::eMemoryRead | vk::AccessFlagBits::eMemoryWrite;
        const std::array images{
            vk::ImageMemoryBarrier{.srcAccessMask = all, .dstAccessMask = all, .oldLayout = from, .newLayout = layout,
                                   .image = *colour_.image, .subresourceRange = colour_range},
            vk::ImageMemoryBarrier{.srcAccessMask = all, .dstAccessMask = all, .oldLayout = from, .newLayout = layout,
                                   .image = *tests_.image, .subresourceRange = tests_range}};
        const vk::MemoryBarrier memory{.srcAccessMask = all, .dstAccessMask = all};
        const auto every = vk::PipelineStageFlagBits::eAllCommands | vk::PipelineStageFlagBits::eHost;
        commands_.pipelineBarrier(every, every, {}, memory, {}, images);
    }

    void submit() {
        barrier();
        commands_.end();
        device_.queue.submit(vk::SubmitInfo{.commandBufferCount = 1, .pCommandBuffers = &*commands_});
        device_.queue.waitIdle();
    }

    double unit_of_bias_;
    const Script& script_;
    Device device_;
    Pipelines pipelines_;
    Image colour_, tests_;
    vk::raii::CommandPool pool_;
    vk::raii::CommandBuffer commands_;
    vk::raii::QueryPool counting_;
    std::optional<Buffer> predicates_;
    std::map<const Command*, Buffer> buffers_;
    std::vector<int> issues_;
    std::array<std::uint64_t, queries> counts_{};
    bool is_open_ = false;
};

Pixels play_script(const Script& script, const Options& options, std::ostream& answers) {
    return played<VulkanRenderer>(script, answers, options);
}

}  // namespace

int main(int count, char** words) {
    return run_adapter(count, words, {"vulkan", {"--device=", "--float-depth"}, play_script});
}
