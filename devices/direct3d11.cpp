// Plays a script by Direct3D 11 itself: direct3d11 SCRIPT OUT.tga [--planes FILE] [--adapter N | --warp]
// Deferred contexts, lists, queries, predicates and states are the interface's own.
#include "direct3d11_device.h"

using namespace adapter;

namespace {

constexpr ULONGLONG patience = 10000;  // milliseconds until a query counts as one that isn't answered

class Direct3DPlayer {
public:
    Direct3DPlayer(const Script& script, const Options& options) : device_(script, options), stage_(device_) {
        stage_.set(device_.context.Get());
        const float nothing[4] = {};
        device_.context->ClearRenderTargetView(device_.colour_view.Get(), nothing);
        device_.context->ClearDepthStencilView(device_.tests_view.Get(), both, 1, 0);
        has_depth_above_ = device_.words_of(device_.tests.Get()).at(0) == deepest << 8;
        if (has_depth_above_) tell("note: mapped words of D24_UNORM_S8_UINT have their depth in the upper bits");
        for (const Command& command : script.commands) {
            if (command.word == Word::predicate && !command.numbers.empty()) make_predicate(command.at(0));
            if (command.word == Word::begin) make_query(command.at(0));
        }
    }

    void take(const Command& command, std::ostream& answers) {
        ID3D11DeviceContext* context = context_of(command.actor);
        switch (command.word) {
        case Word::finish: return finish(context, command);
        case Word::exec: return execute(command);
        case Word::flush: return context->Flush();
        case Word::query: return answer(command, answers);
        case Word::pixel: return answer_pixel(answers, command, read().at(command.at(1) * width() + command.at(0)));
        case Word::begin:
            context->Begin(counting_.at(command.at(0)).Get());
            if (const auto& it = predicates_[command.at(0)]) context->Begin(it.Get());
            return;
        case Word::end:
            context->End(counting_.at(command.at(0)).Get());
            if (const auto& it = predicates_[command.at(0)]) context->End(it.Get());
            return;
        case Word::draw: return context->Draw(whole(command.at(0)), whole(command.at(1)));
        case Word::drawi:
            return context->DrawIndexed(whole(command.at(0)), whole(command.at(1)), static_cast<INT>(command.at(2)));
        case Word::clearc:
        case Word::cleards: return clear(context, command);
        default: return set(context, command);
        }
    }

    Pixels read() {
        const auto colours = device_.words_of(device_.colour.Get()), tests = device_.words_of(device_.tests.Get());
        Pixels pixels(colours.size());
        for (std::size_t at = 0; at < pixels.size(); at++) {
            std::memcpy(pixels[at].colour.data(), &colours[at], 4);
            pixels[at].depth = has_depth_above_ ? tests[at] >> 8 : tests[at] & deepest;
            pixels[at].stencil = static_cast<std::uint8_t>(has_depth_above_ ? tests[at] & 255 : tests[at] >> 24);
        }
        return pixels;
    }

private:
    static constexpr UINT both = D3D11_CLEAR_DEPTH | D3D11_CLEAR_STENCIL;

    std::size_t width() const {
        D3D11_TEXTURE2D_DESC told{};
        device_.colour->GetDesc(&told);
        return told.Width;
    }

    void make_query(std::int64_t number) {
        const D3D11_QUERY_DESC wish{D3D11_QUERY_OCCLUSION, 0};
        auto& query = counting_[number];
        if (!query) check(device_.device->CreateQuery(&wish, &query), "CreateQuery");
    }

    // (its result is none as long as no draw was counted)
    void make_predicate(std::int64_t number) {
        const D3D11_QUERY_DESC wish{D3D11_QUERY_OCCLUSION_PREDICATE, 0};
        auto& predicate = predicates_[number];
        if (predicate) return;
        check(device_.device->CreatePredicate(&wish, &predicate), "CreatePredicate");
        device_.context->Begin(predicate.Get());
        device_.context->End(predicate.Get());
    }

    ID3D11DeviceContext* context_of(int actor) {
        if (actor == immediate) return device_.context.Get();
        auto& context = deferred_[actor];
        if (!context) {
            if (FAILED(device_.device->CreateDeferredContext(0, &context))) throw Unsupported("deferred contexts");
            stage_.set(context.Get());
        }
        return context.Get();
    }

    void finish(ID3D11DeviceContext* context, const Command& command) {
        auto& list = lists_[command.actor].emplace_back();
        check(context->FinishCommandList(command.at(0) != 0, &list), "FinishCommandList");
        if (command.at(0) == 0) stage_.set(context);
    }

    void execute(const Command& command) {
        device_.context->ExecuteCommandList(lists_.at(command.at(0)).at(command.at(1)).Get(), command.at(2) != 0);
        if (command.at(2) == 0) stage_.set(device_.context.Get());
    }

    void answer(const Command& command, std::ostream& answers) {
        UINT64 count = 0;
        const ULONGLONG begun = GetTickCount64();
        while (device_.context->GetData(counting_.at(command.at(0)).Get(), &count, sizeof count, 0) != S_OK) {
            if (GetTickCount64() - begun > patience)
                return tell("note: query " + std::to_string(command.at(0)) + " isn't answered");
            Sleep(1);
        }
        answer_count(answers, command.at(0), count);
    }

    void clear(ID3D11DeviceContext* context, const Command& command) {
        if (command.word == Word::cleards)
            return context->ClearDepthStencilView(device_.tests_view.Get(), both, depth_of(command.at(0)),
                                                  static_cast<UINT8>(command.at(1)));
        float colour[4];
        for (int channel = 0; channel < 4; channel++) colour[channel] = static_cast<float>(command.at(channel));
        context->ClearRenderTargetView(device_.colour_view.Get(), colour);
    }

    void set(ID3D11DeviceContext* context, const Command& command) {
        const UINT stride = sizeof(Vertex), none = 0;
        const auto number = [&](int at) { return static_cast<LONG>(command.at(at)); };
        switch (command.word) {
        case Word::vb:
            return context->IASetVertexBuffers(0, 1, buffer_of(command).GetAddressOf(), &stride, &none);
        case Word::ib: return context->IASetIndexBuffer(buffer_of(command).Get(), DXGI_FORMAT_R16_UINT, 0);
        case Word::topology:
            return context->IASetPrimitiveTopology(static_cast<D3D11_PRIMITIVE_TOPOLOGY>(command.at(0)));
        case Word::scissor: {
            const D3D11_RECT inside{number(0), number(1), number(2), number(3)};
            return context->RSSetScissorRects(1, &inside);
        }
        case Word::raster: return context->RSSetState(rasterizer_of(command).Get());
        case Word::ds: return context->OMSetDepthStencilState(tests_of(command).Get(), whole(command.at(14)));
        case Word::blend: return context->OMSetBlendState(blend_of(command).Get(), nullptr, 0xFFFFFFFF);
        default:
            if (command.numbers.empty()) return context->SetPredication(nullptr, FALSE);
            return context->SetPredication(predicates_.at(command.at(0)).Get(), command.at(1) != 0);
        }
    }

    ComPtr<ID3D11Buffer>& buffer_of(const Command& command) {
        auto& buffer = buffers_[&command];
        if (buffer || command.numbers.empty()) return buffer;
        const auto vertices = vertices_of(command);
        const auto indices = indices_of(command);
        const bool is_vb = command.word == Word::vb;
        const D3D11_BUFFER_DESC wish{
            static_cast<UINT>(is_vb ? vertices.size() * sizeof(Vertex) : indices.size() * 2), D3D11_USAGE_IMMUTABLE,
            static_cast<UINT>(is_vb ? D3D11_BIND_VERTEX_BUFFER : D3D11_BIND_INDEX_BUFFER), 0, 0, 0};
        const D3D11_SUBRESOURCE_DATA content{is_vb ? static_cast<const void*>(vertices.data()) : indices.data(), 0, 0};
        check(device_.device->CreateBuffer(&wish, &content, &buffer), "CreateBuffer");
        return buffer;
    }

    ComPtr<ID3D11RasterizerState> rasterizer_of(const Command& command) const {
        D3D11_RASTERIZER_DESC wish{};
        wish.FillMode = D3D11_FILL_SOLID;
        wish.CullMode = static_cast<D3D11_CULL_MODE>(command.at(0));
        wish.FrontCounterClockwise = command.at(1) != 0;
        wish.ScissorEnable = command.at(2) != 0;
        wish.DepthBias = command.numbers.size() > 3 ? static_cast<INT>(command.at(3)) : 0;
        wish.DepthClipEnable = TRUE;
        ComPtr<ID3D11RasterizerState> state;
        check(device_.device->CreateRasterizerState(&wish, &state), "CreateRasterizerState");
        return state;
    }

    ComPtr<ID3D11DepthStencilState> tests_of(const Command& command) const {
        const auto operation = [&](std::size_t at) { return static_cast<D3D11_STENCIL_OP>(command.at(at)); };
        const auto face = [&](std::size_t at) {
            return D3D11_DEPTH_STENCILOP_DESC{operation(at), operation(at + 1), operation(at + 2),
                                              static_cast<D3D11_COMPARISON_FUNC>(command.at(at + 3))};
        };
        const D3D11_DEPTH_STENCIL_DESC wish{
            command.at(0) != 0, static_cast<D3D11_DEPTH_WRITE_MASK>(command.at(1)),
            static_cast<D3D11_COMPARISON_FUNC>(command.at(2)), command.at(3) != 0, static_cast<UINT8>(command.at(4)),
            static_cast<UINT8>(command.at(5)), face(6), face(10)};
        ComPtr<ID3D11DepthStencilState> state;
        check(device_.device->CreateDepthStencilState(&wish, &state), "CreateDepthStencilState");
        return state;
    }

    ComPtr<ID3D11BlendState> blend_of(const Command& command) const {
        D3D11_BLEND_DESC1 wish{};
        wish.RenderTarget[0] = {FALSE, command.at(0) != 0, D3D11_BLEND_ONE, D3D11_BLEND_ZERO, D3D11_BLEND_OP_ADD,
                                D3D11_BLEND_ONE, D3D11_BLEND_ZERO, D3D11_BLEND_OP_ADD,
                                static_cast<D3D11_LOGIC_OP>(command.at(1)), static_cast<UINT8>(command.at(2))};
        D3D11_FEATURE_DATA_D3D11_OPTIONS can{};
        device_.device->CheckFeatureSupport(D3D11_FEATURE_D3D11_OPTIONS, &can, sizeof can);
        if (command.at(0) != 0 && !can.OutputMergerLogicOp) throw Unsupported("logic operations");
        ComPtr<ID3D11Device1> later;
        ComPtr<ID3D11BlendState1> state;
        check(device_.device.As(&later), "ID3D11Device1");
        check(later->CreateBlendState1(&wish, &state), "CreateBlendState1");
        return state;
    }

    Device device_;
    Stage stage_;
    bool has_depth_above_ = false;
    std::map<std::int64_t, ComPtr<ID3D11Query>> counting_;
    std::map<std::int64_t, ComPtr<ID3D11Predicate>> predicates_;
    std::map<int, ComPtr<ID3D11DeviceContext>> deferred_;
    std::map<std::int64_t, std::vector<ComPtr<ID3D11CommandList>>> lists_;
    std::map<const Command*, ComPtr<ID3D11Buffer>> buffers_;
};

Pixels play_script(const Script& script, const Options& options, std::ostream& answers) {
    Direct3DPlayer player(script, options);
    for (const Command& command : script.commands) player.take(command, answers);
    return player.read();
}

}  // namespace

int main(int count, char** words) {
    return run_adapter(count, words, {"direct3d11", {"--adapter=", "--warp"}, play_script});
}
