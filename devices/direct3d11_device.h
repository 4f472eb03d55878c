// A device of Direct3D 11 with its target, and what every draw has besides a script's state.
#pragma once
#include <d3d11_1.h>
#include <d3dcompiler.h>
#include <wrl/client.h>

#include <cstring>

#include "script.h"

namespace adapter {

using Microsoft::WRL::ComPtr;

constexpr const char* shaders = R"(
struct Corner { float3 place : POSITION; uint4 colour : COLOR; };
struct Drawn { float4 place : SV_Position; nointerpolation uint4 colour : COLOR; };
Drawn corner(Corner it) {
    Drawn drawn;
    drawn.place = float4(it.place.x / 4096.0, it.place.y / -4096.0, it.place.z, 1.0);
    drawn.colour = it.colour;
    return drawn;
}
uint4 pixel(Drawn it) : SV_Target { return it.colour; })";

inline void check(HRESULT result, const char* what) {
    if (FAILED(result)) throw std::runtime_error(std::string(what) + " fails");
}

inline UINT whole(std::int64_t number) { return static_cast<UINT>(number); }

// The adapter that is asked for, or none for the first one.
inline ComPtr<IDXGIAdapter> chosen(const Options& options) {
    ComPtr<IDXGIAdapter> found;
    ComPtr<IDXGIFactory> factory;
    if (!options.contains("--adapter")) return found;
    check(CreateDXGIFactory(IID_PPV_ARGS(&factory)), "CreateDXGIFactory");
    check(factory->EnumAdapters(std::stoul(options.at("--adapter")), &found), "EnumAdapters");
    return found;
}

// A device, its immediate context, and the target with copies that can be read.
struct Device {
    Device(const Script& script, const Options& options) {
        const auto adapter = chosen(options);
        const auto kind = adapter ? D3D_DRIVER_TYPE_UNKNOWN
                          : options.contains("--warp") ? D3D_DRIVER_TYPE_WARP : D3D_DRIVER_TYPE_HARDWARE;
        const D3D_FEATURE_LEVEL wanted[] = {D3D_FEATURE_LEVEL_11_1, D3D_FEATURE_LEVEL_11_0, D3D_FEATURE_LEVEL_10_0};
        check(D3D11CreateDevice(adapter.Get(), kind, nullptr, 0, wanted, 3, D3D11_SDK_VERSION, &device, nullptr,
                                &context), "D3D11CreateDevice");
        tell("device: " + name());
        D3D11_TEXTURE2D_DESC wish{script.width, script.height, 1, 1, DXGI_FORMAT_R8G8B8A8_UINT, {1, 0},
                                  D3D11_USAGE_DEFAULT, D3D11_BIND_RENDER_TARGET, 0, 0};
        check(device->CreateTexture2D(&wish, nullptr, &colour), "CreateTexture2D of R8G8B8A8_UINT");
        check(device->CreateRenderTargetView(colour.Get(), nullptr, &colour_view), "CreateRenderTargetView");
        wish.Format = DXGI_FORMAT_D24_UNORM_S8_UINT;
        wish.BindFlags = D3D11_BIND_DEPTH_STENCIL;
        if (FAILED(device->CreateTexture2D(&wish, nullptr, &tests))) throw Unsupported("D24_UNORM_S8_UINT");
        check(device->CreateDepthStencilView(tests.Get(), nullptr, &tests_view), "CreateDepthStencilView");
    }

    std::string name() const {
        ComPtr<IDXGIDevice> found;
        ComPtr<IDXGIAdapter> adapter;
        DXGI_ADAPTER_DESC told{};
        check(device.As(&found), "IDXGIDevice");
        check(found->GetAdapter(&adapter), "GetAdapter");
        check(adapter->GetDesc(&told), "GetDesc");
        char text[3 * sizeof told.Description] = "";
        WideCharToMultiByte(CP_UTF8, 0, told.Description, -1, text, sizeof text, nullptr, nullptr);
        using Version = const char*(CDECL*)();
        const auto library = GetModuleHandleA("ntdll.dll");
        const auto found_version = reinterpret_cast<void*>(GetProcAddress(library, "wine_get_version"));
        const auto wine = reinterpret_cast<Version>(found_version);
        return std::string(text) + ", Direct3D 11" + (wine != nullptr ? std::string(" of Wine ") + wine() : "");
    }

    // The words of a texture, row by row.
    std::vector<std::uint32_t> words_of(ID3D11Texture2D* texture) const {
        D3D11_TEXTURE2D_DESC wish{};
        ComPtr<ID3D11Texture2D> copy;
        D3D11_MAPPED_SUBRESOURCE mapped{};
        texture->GetDesc(&wish);
        wish.Usage = D3D11_USAGE_STAGING;
        wish.BindFlags = 0;
        wish.CPUAccessFlags = D3D11_CPU_ACCESS_READ;
        check(device->CreateTexture2D(&wish, nullptr, &copy), "CreateTexture2D of a copy");
        context->CopyResource(copy.Get(), texture);
        check(context->Map(copy.Get(), 0, D3D11_MAP_READ, 0, &mapped), "Map");
        std::vector<std::uint32_t> words(std::size_t{wish.Width} * wish.Height);
        for (UINT y = 0; y < wish.Height; y++)
            std::memcpy(&words[std::size_t{y} * wish.Width],
                        static_cast<const char*>(mapped.pData) + std::size_t{y} * mapped.RowPitch, 4 * wish.Width);
        context->Unmap(copy.Get(), 0);
        return words;
    }

    ComPtr<ID3D11Device> device;
    ComPtr<ID3D11DeviceContext> context;
    ComPtr<ID3D11Texture2D> colour, tests;
    ComPtr<ID3D11RenderTargetView> colour_view;
    ComPtr<ID3D11DepthStencilView> tests_view;
};

// What every draw has besides a script's state: shaders, the form of corners, target and viewport.
class Stage {
public:
    explicit Stage(const Device& device) : device_(device) {
        const auto corner = compiled("corner", "vs_4_0"), pixel = compiled("pixel", "ps_4_0");
        check(device.device->CreateVertexShader(corner->GetBufferPointer(), corner->GetBufferSize(), nullptr, &corner_),
              "CreateVertexShader");
        check(device.device->CreatePixelShader(pixel->GetBufferPointer(), pixel->GetBufferSize(), nullptr, &pixel_),
              "CreatePixelShader");
        const D3D11_INPUT_ELEMENT_DESC parts[] = {
            {"POSITION", 0, DXGI_FORMAT_R32G32B32_FLOAT, 0, 0, D3D11_INPUT_PER_VERTEX_DATA, 0},
            {"COLOR", 0, DXGI_FORMAT_R8G8B8A8_UINT, 0, offsetof(Vertex, colour), D3D11_INPUT_PER_VERTEX_DATA, 0}};
        check(device.device->CreateInputLayout(parts, 2, corner->GetBufferPointer(), corner->GetBufferSize(), &layout_),
              "CreateInputLayout");
    }

    // Sets it, since new contexts and those whose state was dropped have none.
    void set(ID3D11DeviceContext* context) const {
        const D3D11_VIEWPORT viewport{-4096, -4096, 8192, 8192, 0, 1};
        context->OMSetRenderTargets(1, device_.colour_view.GetAddressOf(), device_.tests_view.Get());
        context->VSSetShader(corner_.Get(), nullptr, 0);
        context->PSSetShader(pixel_.Get(), nullptr, 0);
        context->IASetInputLayout(layout_.Get());
        context->RSSetViewports(1, &viewport);
    }

private:
    static ComPtr<ID3DBlob> compiled(const char* entry, const char* target) {
        const auto library = LoadLibraryA("d3dcompiler_47.dll");
        const auto compile = reinterpret_cast<pD3DCompile>(
            reinterpret_cast<void*>(library != nullptr ? GetProcAddress(library, "D3DCompile") : nullptr));
        if (compile == nullptr) throw std::runtime_error("there is no d3dcompiler_47.dll");
        ComPtr<ID3DBlob> code;
        check(compile(shaders, std::strlen(shaders), "flat", nullptr, nullptr, entry, target, 0, 0, &code, nullptr),
              "D3DCompile");
        return code;
    }

    const Device& device_;
    ComPtr<ID3D11VertexShader> corner_;
    ComPtr<ID3D11PixelShader> pixel_;
    ComPtr<ID3D11InputLayout> layout_;
};

}  // namespace adapter
