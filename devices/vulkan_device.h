// A device of Vulkan 1.3 with what a script asks of it, its memory, and its pipelines.
#pragma once
#define VULKAN_HPP_NO_STRUCT_CONSTRUCTORS
#include <vulkan/vulkan_raii.hpp>

#include "flat.frag.h"
#include "flat.vert.h"
#include "script.h"

namespace adapter {

constexpr auto layout = vk::ImageLayout::eGeneral;
constexpr auto colour_format = vk::Format::eR8G8B8A8Uint;
constexpr auto tests_aspect = vk::ImageAspectFlagBits::eDepth | vk::ImageAspectFlagBits::eStencil;
constexpr vk::ImageSubresourceRange colour_range{vk::ImageAspectFlagBits::eColor, 0, 1, 0, 1};
constexpr vk::ImageSubresourceRange tests_range{tests_aspect, 0, 1, 0, 1};
// by a script's numbers of logic operations
constexpr std::array logic_operations{
    vk::LogicOp::eClear, vk::LogicOp::eSet, vk::LogicOp::eCopy, vk::LogicOp::eCopyInverted, vk::LogicOp::eNoOp,
    vk::LogicOp::eInvert, vk::LogicOp::eAnd, vk::LogicOp::eNand, vk::LogicOp::eOr, vk::LogicOp::eNor, vk::LogicOp::eXor,
    vk::LogicOp::eEquivalent, vk::LogicOp::eAndReverse, vk::LogicOp::eAndInverted, vk::LogicOp::eOrReverse,
    vk::LogicOp::eOrInverted};
constexpr std::array changing{
    vk::DynamicState::eScissor, vk::DynamicState::ePrimitiveTopology, vk::DynamicState::ePrimitiveRestartEnable,
    vk::DynamicState::eCullMode, vk::DynamicState::eFrontFace, vk::DynamicState::eDepthBiasEnable,
    vk::DynamicState::eDepthBias, vk::DynamicState::eDepthTestEnable, vk::DynamicState::eDepthWriteEnable,
    vk::DynamicState::eDepthCompareOp, vk::DynamicState::eStencilTestEnable, vk::DynamicState::eStencilOp,
    vk::DynamicState::eStencilCompareMask, vk::DynamicState::eStencilWriteMask, vk::DynamicState::eStencilReference};

inline std::uint32_t whole(std::int64_t number) { return static_cast<std::uint32_t>(number); }

inline bool has_predicate(const Script& script) {
    return script.has([](const Command& it) { return it.word == Word::predicate && !it.numbers.empty(); });
}

// A device with what the script asks of it.
struct Device {
    Device(const Script& script, const Options& options)
        : instance(context, {.pApplicationInfo = &application}), physical(chosen(options)), logical(made(script)),
          queue(logical, 0, 0) {
        const auto found = physical.getProperties2<vk::PhysicalDeviceProperties2, vk::PhysicalDeviceDriverProperties>();
        const auto& properties = found.get<vk::PhysicalDeviceProperties2>().properties;
        const auto version = properties.driverVersion;
        tell(std::string("device: ") + properties.deviceName.data() + ", Vulkan driver " +
             std::to_string(VK_API_VERSION_MAJOR(version)) + '.' + std::to_string(VK_API_VERSION_MINOR(version)) + '.' +
             std::to_string(VK_API_VERSION_PATCH(version)) + ' ' +
             found.get<vk::PhysicalDeviceDriverProperties>().driverInfo.data());
        if (can_attach(depth_format)) return;
        if (!options.contains("--float-depth"))
            throw Unsupported("depths of 24 bits (--float-depth takes floats in their place)");
        if (has_bias(script)) throw Unsupported("a depth bias on floats, whose unit is another at each depth");
        depth_format = vk::Format::eD32SfloatS8Uint;
    }

    vk::raii::PhysicalDevice chosen(const Options& options) const {
        const auto number = options.contains("--device") ? std::stoul(options.at("--device")) : 0;
        return vk::raii::PhysicalDevices(instance).at(number);
    }

    vk::raii::Device made(const Script& script) const {
        const vk::PhysicalDeviceFeatures have = physical.getFeatures();
        if (!have.logicOp && script.has([](const Command& it) { return it.word == Word::blend && it.at(0) != 0; }))
            throw Unsupported("logic operations");
        if (!have.occlusionQueryPrecise && script.has([](const Command& it) { return it.word == Word::begin; }))
            throw Unsupported("exact counts of queries");
        const std::uint32_t predicates = has_predicate(script);
        const char* extension = VK_EXT_CONDITIONAL_RENDERING_EXTENSION_NAME;
        const auto extensions = physical.enumerateDeviceExtensionProperties();
        if (predicates && std::none_of(extensions.begin(), extensions.end(), [&](const auto& it) {
                return std::string_view(it.extensionName) == extension; }))
            throw Unsupported("predicates");
        const float priority = 1;
        const vk::DeviceQueueCreateInfo one{.queueCount = 1, .pQueuePriorities = &priority};
        const vk::PhysicalDeviceFeatures wanted{
            .logicOp = have.logicOp, .occlusionQueryPrecise = have.occlusionQueryPrecise};
        vk::PhysicalDeviceConditionalRenderingFeaturesEXT conditional{.conditionalRendering = true};
        vk::PhysicalDeviceVulkan13Features rendering{.dynamicRendering = true};
        if (predicates) rendering.pNext = &conditional;
        return {physical, {.pNext = &rendering, .queueCreateInfoCount = 1, .pQueueCreateInfos = &one,
                           .enabledExtensionCount = predicates, .ppEnabledExtensionNames = &extension,
                           .pEnabledFeatures = &wanted}};
    }

    bool can_attach(vk::Format format) const {
        const auto can = physical.getFormatProperties(format).optimalTilingFeatures;
        return static_cast<bool>(can & vk::FormatFeatureFlagBits::eDepthStencilAttachment);
    }

    vk::raii::DeviceMemory allocated(const vk::MemoryRequirements& wanted, vk::MemoryPropertyFlags flags) const {
        const auto types = physical.getMemoryProperties().memoryTypes;
        std::uint32_t at = 0;
        while ((wanted.memoryTypeBits >> at & 1) == 0 || (types.at(at).propertyFlags & flags) != flags) at++;
        return {logical, {.allocationSize = wanted.size, .memoryTypeIndex = at}};
    }

    vk::ApplicationInfo application{.apiVersion = VK_API_VERSION_1_3};
    vk::raii::Context context;
    vk::raii::Instance instance;
    vk::raii::PhysicalDevice physical;
    vk::raii::Device logical;
    vk::raii::Queue queue;
    vk::Format depth_format = vk::Format::eD24UnormS8Uint;
};

// Memory that both sides see.
struct Buffer {
    Buffer(const Device& device, vk::DeviceSize size, vk::BufferUsageFlags usage)
        : buffer(device.logical, {.size = size, .usage = usage}),
          memory(device.allocated(buffer.getMemoryRequirements(), vk::MemoryPropertyFlagBits::eHostVisible |
                                                                      vk::MemoryPropertyFlagBits::eHostCoherent)) {
        buffer.bindMemory(*memory, 0);
        data = memory.mapMemory(0, VK_WHOLE_SIZE);
        std::memset(data, 0, size);
    }
    vk::raii::Buffer buffer;
    vk::raii::DeviceMemory memory;
    void* data = nullptr;
};

struct Image {
    Image(const Device& device, const Script& script, vk::Format format, const vk::ImageSubresourceRange& range,
          vk::ImageUsageFlags usage)
        : image(device.logical,
                {.imageType = vk::ImageType::e2D, .format = format, .extent = {script.width, script.height, 1},
                 .mipLevels = 1, .arrayLayers = 1, .samples = vk::SampleCountFlagBits::e1,
                 .usage = usage | vk::ImageUsageFlagBits::eTransferSrc | vk::ImageUsageFlagBits::eTransferDst}),
          memory(device.allocated(image.getMemoryRequirements(), {})) {
        image.bindMemory(*memory, 0);
        view = {device.logical,
                {.image = *image, .viewType = vk::ImageViewType::e2D, .format = format, .subresourceRange = range}};
    }
    vk::raii::Image image;
    vk::raii::DeviceMemory memory;
    vk::raii::ImageView view = nullptr;
};

// A pipeline for each logic operation and write mask; other states are set before each draw.
class Pipelines {
public:
    explicit Pipelines(const Device& device)
        : device_(device), layout_(device.logical, vk::PipelineLayoutCreateInfo{}),
          vertex_(device.logical, {.codeSize = sizeof flat_vert, .pCode = flat_vert}),
          fragment_(device.logical, {.codeSize = sizeof flat_frag, .pCode = flat_frag}) {}

    vk::Pipeline of(const std::array<std::int64_t, 3>& blend) {
        const auto found = made_.find(blend);
        return *(found == made_.end() ? made_.emplace(blend, made(blend)).first : found)->second;
    }

private:
    vk::raii::Pipeline made(const std::array<std::int64_t, 3>& state) const {
        const std::array<vk::PipelineShaderStageCreateInfo, 2> stages{{
            {.stage = vk::ShaderStageFlagBits::eVertex, .module = *vertex_, .pName = "main"},
            {.stage = vk::ShaderStageFlagBits::eFragment, .module = *fragment_, .pName = "main"}}};
        const vk::VertexInputBindingDescription binding{.stride = sizeof(Vertex)};
        const std::array<vk::VertexInputAttributeDescription, 2> attributes{{
            {0, 0, vk::Format::eR32G32B32Sfloat, 0}, {1, 0, colour_format, offsetof(Vertex, colour)}}};
        const vk::PipelineVertexInputStateCreateInfo input{
            .vertexBindingDescriptionCount = 1, .pVertexBindingDescriptions = &binding,
            .vertexAttributeDescriptionCount = 2, .pVertexAttributeDescriptions = attributes.data()};
        const vk::PipelineInputAssemblyStateCreateInfo assembly{.topology = vk::PrimitiveTopology::eTriangleList};
        // corners lie within 4096 pixels of (0, 0), so that none is cut, and a place is exact
        const vk::Viewport place{-4096, -4096, 8192, 8192, 0, 1};
        const vk::PipelineViewportStateCreateInfo viewport{.viewportCount = 1, .pViewports = &place, .scissorCount = 1};
        const vk::PipelineRasterizationStateCreateInfo rasterizer{.lineWidth = 1};
        const vk::PipelineMultisampleStateCreateInfo samples{};
        const vk::PipelineDepthStencilStateCreateInfo tests{};
        const vk::PipelineColorBlendAttachmentState written{.colorWriteMask = vk::ColorComponentFlags(whole(state[2]))};
        const vk::PipelineColorBlendStateCreateInfo blend{
            .logicOpEnable = state[0] != 0, .logicOp = logic_operations.at(state[1]),
            .attachmentCount = 1, .pAttachments = &written};
        const vk::PipelineDynamicStateCreateInfo dynamic{
            .dynamicStateCount = changing.size(), .pDynamicStates = changing.data()};
        const vk::PipelineRenderingCreateInfo rendering{
            .colorAttachmentCount = 1, .pColorAttachmentFormats = &colour_format,
            .depthAttachmentFormat = device_.depth_format, .stencilAttachmentFormat = device_.depth_format};
        return {device_.logical, nullptr,
                {.pNext = &rendering, .stageCount = 2, .pStages = stages.data(), .pVertexInputState = &input,
                 .pInputAssemblyState = &assembly, .pViewportState = &viewport, .pRasterizationState = &rasterizer,
                 .pMultisampleState = &samples, .pDepthStencilState = &tests, .pColorBlendState = &blend,
                 .pDynamicState = &dynamic, .layout = *layout_}};
    }

    const Device& device_;
    vk::raii::PipelineLayout layout_;
    vk::raii::ShaderModule vertex_, fragment_;
    std::map<std::array<std::int64_t, 3>, vk::raii::Pipeline> made_;
};

}  // namespace adapter
