// The header in C++: every entry is called once, and its answer held to the one expected.
#include "capstan.h"

#include <cstdio>
#include <cstring>
#include <string>
#include <vector>

static_assert(sizeof(capstan_read_answer) == 4 * sizeof(std::size_t), "four numbers");
static_assert(sizeof(capstan_context_answer) == 4 * sizeof(std::size_t), "four numbers");
static_assert(sizeof(capstan_feed_answer) == 8 * sizeof(std::size_t), "two numbers and a state of six");
static_assert(sizeof(capstan_walk_answer) == 4 * sizeof(std::size_t), "four numbers");

static const std::uint8_t *octets(const std::string &s)
{
    return reinterpret_cast<const std::uint8_t *>(s.data());
}

// The header in two parts: the finish answers as reading it whole did, and leaves the same records.
static bool parts_hold(const std::string &header, const capstan_read_answer &whole, const std::vector<std::size_t> &links,
                       const std::vector<std::size_t> &params)
{
    const std::size_t cut = header.size() / 2;
    std::vector<std::uint8_t> buffer(CAPSTAN_LIMIT);
    std::vector<std::size_t> own_links(links.size()), own_params(params.size());

    const auto first = capstan_feed(capstan_start(CAPSTAN_RFC8288), octets(header), cut, buffer.data(), buffer.size());
    const auto second = capstan_feed(first.next, octets(header) + cut, header.size() - cut, buffer.data(), buffer.size());
    const auto f = capstan_finish(second.next, buffer.data(), buffer.size(), own_links.data(), own_links.size(), own_params.data(),
                                  own_params.size());
    return first.number == CAPSTAN_DONE && second.number == CAPSTAN_DONE && f.number == CAPSTAN_DONE && f.links == whole.links
        && f.params == whole.params && own_links == links && own_params == params
        && std::memcmp(buffer.data(), header.data(), header.size()) == 0;
}

// A title is what the decoder gives of its extended value.
static bool titles_hold()
{
    const std::string header = "<a>;title*=UTF-8'de'%c3%a4";
    const std::string title = "\xC3\xA4";
    std::vector<std::size_t> links(CAPSTAN_LINK_SLOTS), params(CAPSTAN_PARAM_SLOTS);
    std::vector<std::uint8_t> told(title.size()), decoded(title.size());

    const auto r = capstan_read(CAPSTAN_RFC8288, octets(header), header.size(), links.data(), links.size(), params.data(),
                                params.size());
    const auto t = capstan_title(CAPSTAN_RFC8288, octets(header), header.size(), links.data(), links.size(), params.data(),
                                 params.size(), r.links, r.params, 0, told.data(), told.size());
    const auto d = capstan_decode(octets(header) + params[2], params[3] - params[2], decoded.data(), decoded.size());
    const auto wrong = capstan_decode(octets(header), header.size(), decoded.data(), decoded.size());
    return t.number == CAPSTAN_DONE && t.length == title.size() && d.number == CAPSTAN_DONE && d.length == title.size()
        && told == decoded && std::memcmp(told.data(), title.data(), title.size()) == 0 && wrong.number == CAPSTAN_BAD_EXTENDED
        && wrong.length == 0;
}

// A target and a context are resolved on the same base.
static bool resolved_hold()
{
    const std::string header = "<../8>;anchor=\"\\#s\"";
    const std::string base = "http://a/packs/7/#f";
    const std::string target = "http://a/packs/8", context = "http://a/packs/7/#s";
    std::vector<std::size_t> links(CAPSTAN_LINK_SLOTS), params(CAPSTAN_PARAM_SLOTS);
    std::vector<std::uint8_t> resolved(target.size()), told(context.size());

    const auto r = capstan_read(CAPSTAN_RFC8288, octets(header), header.size(), links.data(), links.size(), params.data(),
                                params.size());
    const auto t = capstan_resolve(octets(header) + links[0], links[1] - links[0], octets(base), base.size(), resolved.data(),
                                   resolved.size());
    const auto c = capstan_resolved_context(CAPSTAN_RFC8288, octets(header), header.size(), octets(base), base.size(), links.data(),
                                            links.size(), params.data(), params.size(), r.links, r.params, 0, told.data(), told.size());
    const auto bad_base = capstan_resolve(octets(base), base.size(), octets(header), 1, resolved.data(), resolved.size());
    const auto bad_reference = capstan_resolve(octets(header), 1, octets(base), base.size(), resolved.data(), resolved.size());
    return t.number == CAPSTAN_DONE && t.length == target.size() && std::memcmp(resolved.data(), target.data(), target.size()) == 0
        && c.number == CAPSTAN_DONE && c.length == context.size() && std::memcmp(told.data(), context.data(), context.size()) == 0
        && bad_base.number == CAPSTAN_BAD_BASE && bad_base.length == 0 && bad_reference.number == CAPSTAN_BAD_REFERENCE
        && bad_reference.length == 0;
}

// A walk to the next pack, and back past the first, which has none before it.
static bool walks_hold()
{
    const std::string catalogue = "http://a/7\t<8>;rel=next\nhttp://a/8\t<7>;rel=prev\n";
    std::vector<std::size_t> links(CAPSTAN_LINK_SLOTS), params(CAPSTAN_PARAM_SLOTS);
    std::vector<std::uint8_t> work(CAPSTAN_LIMIT);
    const auto walk = [&](std::size_t start, std::int32_t steps) {
        return capstan_walk(octets(catalogue), catalogue.size(), start, steps, links.data(), links.size(), params.data(), params.size(),
                            work.data(), work.size());
    };

    const auto forth = walk(0, 1), back = walk(1, -2), far = walk(0, CAPSTAN_STEP_LIMIT + 1);
    return forth.number == CAPSTAN_DONE && forth.end == CAPSTAN_ARRIVED && forth.pack == 1 && forth.steps == 1
        && back.number == CAPSTAN_DONE && back.end == CAPSTAN_NO_LINK && back.pack == 0 && back.steps == 1
        && far.number == CAPSTAN_OUT_OF_RANGE && far.end == CAPSTAN_NO_END && far.pack == 0 && far.steps == 0;
}

int main()
{
    const std::string header = "</packs/8>; rel=\"next\"";
    const std::string name = "REL";
    const std::string relation = "next";
    const std::string base = "/packs/7";
    std::vector<std::size_t> links(CAPSTAN_LINK_SLOTS), params(CAPSTAN_PARAM_SLOTS);
    std::vector<std::uint8_t> out(64);

    const auto r = capstan_read(CAPSTAN_RFC8288, octets(header), header.size(), links.data(), links.size(), params.data(),
                                params.size());
    const auto code = capstan_name_code(octets(header) + params[0], params[1] - params[0]);
    const auto alike = capstan_compare(octets(header) + params[0], params[1] - params[0], octets(name), name.size());
    const auto s = capstan_search(CAPSTAN_RFC8288, octets(header), header.size(), links.data(), links.size(), params.data(),
                                  params.size(), r.links, r.params, octets(relation), relation.size());
    const auto c = capstan_context(CAPSTAN_RFC8288, octets(header), header.size(), octets(base), base.size(), links.data(),
                                   links.size(), params.data(), params.size(), r.links, r.params, s.link);
    const auto v = capstan_value(CAPSTAN_RFC8288, octets(header), header.size(), links.data(), links.size(), params.data(),
                                 params.size(), r.links, r.params, s.link, 0, out.data(), out.size());
    const std::string form = "</packs/8>; rel=next";
    std::vector<std::uint8_t> written(form.size());
    const auto w = capstan_write(CAPSTAN_RFC8288, octets(header), header.size(), links.data(), links.size(), params.data(),
                                 params.size(), r.links, r.params, written.data(), written.size());
    const bool holds = r.number == CAPSTAN_DONE && r.links == 1 && r.params == 1 && s.number == CAPSTAN_DONE && s.link == 0
        && c.number == CAPSTAN_DONE && c.source == CAPSTAN_BASE && c.start == 0 && c.end == base.size() && v.number == CAPSTAN_DONE
        && v.length == relation.size() && std::memcmp(out.data(), relation.data(), v.length) == 0 && w.number == CAPSTAN_DONE
        && w.length == form.size() && std::memcmp(written.data(), form.data(), w.length) == 0 && code == CAPSTAN_REL
        && params.back() == code && alike.same == 1 && alike.pairs == name.size() && parts_hold(header, r, links, params) && titles_hold()
        && resolved_hold() && walks_hold();
    if (!holds)
        std::puts("header.cpp: an answer is not the one expected");
    return holds ? 0 : 1;
}
