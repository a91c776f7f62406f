// Measures Qollqamir beside LLVM's reader (with -DWITH_LLVM), the independent reader and plain passes over the same bytes; with
// -DWITH_BEFORE, beside another build of itself, whose calls have `before_` in front of their names.
// Contenders of a row take turns, round by round. A time is the median of the rounds; a ratio is the median of the rounds' ratios, which a
// machine that slows down for a while disturbs less.
#include "qollqamir.h"
#include <algorithm>
#include <alloca.h>
#include <chrono>
#include <cstdio>
#include <cstdlib>
#include <cstring>
#include <filesystem>
#include <fstream>
#include <functional>
#include <iterator>
#include <string>
#include <vector>
#ifdef WITH_LLVM
#include "llvm/Object/DXContainer.h"
#endif

extern "C" {
uint8_t reference_open(const uint8_t *, size_t, size_t);
uint8_t reference_table(const uint8_t *, size_t);
uint8_t reference_string(const uint8_t *, size_t, size_t, size_t);
uint8_t reference_signature(const uint8_t *, size_t, size_t, uint32_t);
uint8_t reference_difference(const uint8_t *, size_t, size_t, uint32_t, size_t *);
uint8_t reference_root(const uint8_t *, size_t, size_t);
uint8_t reference_write_psv0(size_t, const uint8_t *const *, const size_t *, uint8_t *, size_t);
uint8_t reference_assemble(const uint8_t *, const uint32_t *, size_t, const uint8_t *, size_t, const uint8_t *, uint8_t *, size_t);
uint8_t reference_settings(const uint8_t *, size_t);
uint8_t reference_settings_value(const uint8_t *, size_t, uint32_t, uint32_t);
uint8_t reference_write_settings(const uint32_t *, size_t, uint8_t *, size_t);
void *reference_figures_start(size_t);
uint8_t reference_figures_add(void *, const uint8_t *, size_t);
uint32_t pass_bytewise(const uint8_t *, size_t);
uint32_t pass_vectorized(const uint8_t *, size_t);
}

using Bytes = std::vector<uint8_t>;
using Call = std::function<void(size_t)>;

static int rounds = 15;
static double round_ns = 2e6;

// How far down the stack a round's calls stand. What an answer of 2 KB costs depends on where its copies lie beside each other, so where such
// answers are compared, each round stands elsewhere.
static size_t depth = 0;
static bool spread = false;

static void require(bool holds, const std::string &what) {
    if (!holds) {
        fprintf(stderr, "bench: %s\n", what.c_str());
        exit(1);
    }
}

// Runs a call n times. What it answers is kept from the optimizer.
template <class F> static Call repeat(F f) {
    return [f](size_t n) {
        volatile char *above = static_cast<char *>(alloca(depth + 1));
        *above = 0;
        for (size_t i = 0; i < n; i++) {
            auto answer = f();
            asm volatile("" : : "r"(&answer) : "memory");
        }
    };
}

static double once(const Call &call, size_t n) {
    auto start = std::chrono::steady_clock::now();
    call(n);
    return std::chrono::duration<double, std::nano>(std::chrono::steady_clock::now() - start).count();
}

static double median(std::vector<double> x) {
    if (x.empty())
        return -1;
    std::sort(x.begin(), x.end());
    return x[x.size() / 2];
}

// The rounds of each call in nanoseconds a call; a missing call has none.
struct Times {
    std::vector<std::vector<double>> rounds;

    double operator[](size_t c) const { return median(rounds[c]); }
    double ratio(size_t a, size_t b) const {
        std::vector<double> all;
        for (size_t r = 0; r < std::min(rounds[a].size(), rounds[b].size()); r++)
            all.push_back(rounds[a][r] / rounds[b][r]);
        return median(all);
    }
};

static Times measure(const std::vector<Call> &calls) {
    std::vector<size_t> times(calls.size(), 0);
    Times all{std::vector<std::vector<double>>(calls.size())};
    for (size_t c = 0; c < calls.size(); c++) {
        if (!calls[c])
            continue;
        size_t n = 1;
        while (once(calls[c], n) < round_ns && n < (1u << 24))
            n *= 2;
        times[c] = n;
    }
    for (int r = 0; r < rounds; r++) {
        depth = spread ? 272 * size_t(r) : 0;
        for (size_t c = 0; c < calls.size(); c++)
            if (calls[c])
                all.rounds[c].push_back(once(calls[c], times[c]) / times[c]);
    }
    depth = 0;
    return all;
}

static void cell(double x) {
    if (x < 0)
        printf(" %11s", "-");
    else
        printf(x < 1000 ? " %11.1f" : " %11.0f", x);
}

static void ratio(double x) {
    if (x < 0)
        printf(" %9s", "-");
    else
        printf(" %9.*f", x < 0.01 ? 5 : 2, x);
}

// ---- containers

static Bytes load(const std::filesystem::path &path) {
    std::ifstream in(path, std::ios::binary);
    return Bytes(std::istreambuf_iterator<char>(in), {});
}

static void put(Bytes &b, size_t at, uint32_t n) {
    for (int k = 0; k < 4; k++)
        b[at + k] = uint8_t(n >> 8 * k);
}

static void append(Bytes &b, uint32_t n) {
    b.resize(b.size() + 4);
    put(b, b.size() - 4, n);
}

// What the assembler takes.
struct Parts {
    Bytes names, data, digest = Bytes(16, 0);
    std::vector<uint32_t> sizes;

    void add(const char *name, const Bytes &bytes) {
        names.insert(names.end(), name, name + 4);
        sizes.push_back(uint32_t(bytes.size()));
        data.insert(data.end(), bytes.begin(), bytes.end());
    }
    qollqamir_written into(Bytes &out) const {
        return qollqamir_assemble(names.data(), names.size(), sizes.data(), sizes.size(), data.data(), data.size(), digest.data(), 16,
                                  out.data(), out.size());
    }
    Bytes container() const {
        Bytes out(data.size() + 16 * sizes.size() + 64);
        auto w = into(out);
        require(w.verdict.number == 0, "a container could not be assembled");
        out.resize(w.len);
        return out;
    }
};

static Parts parts_of(const Bytes &b) {
    Parts p;
    auto t = qollqamir_table(b.data(), b.size());
    for (size_t i = 0; i < t.count; i++) {
        char name[4];
        memcpy(name, &t.names[i], 4);
        auto data = b.begin() + t.offsets[i] + 8;
        p.add(name, Bytes(data, data + t.sizes[i]));
    }
    std::copy(b.begin() + 4, b.begin() + 20, p.digest.begin());
    return p;
}

static Bytes with_psv0(const Bytes &psv0) {
    Parts p;
    p.add("DXIL", Bytes(4, 1));
    p.add("PSV0", psv0);
    return p.container();
}

// PSV0 data of edition 3, a pixel shader: resource records, elements of one row with these names, strings and indices.
static Bytes psv0_of(uint32_t resources, uint32_t elements, uint32_t name, const Bytes &strings, uint32_t indices) {
    Bytes b;
    append(b, 52);
    b.resize(56, 0);
    for (uint32_t k = 0; k < 3; k++)
        b[4 + 28 + k] = uint8_t(elements / 3);
    put(b, 4 + 48, name);
    append(b, resources);
    if (resources)
        append(b, 24);
    b.resize(b.size() + 24 * size_t(resources), 0);
    append(b, uint32_t(strings.size()));
    b.insert(b.end(), strings.begin(), strings.end());
    append(b, indices);
    b.resize(b.size() + 4 * size_t(indices), 0);
    if (elements)
        append(b, 16);
    for (uint32_t e = 0; e < elements; e++) {
        append(b, name + e % 8);
        append(b, 0);
        append(b, 1);
        append(b, 0);
    }
    return b;
}

// ---- calls

static Call open_at(const Bytes &b, size_t edition) {
    return repeat([&b, edition] { return qollqamir_open(b.data(), b.size(), edition); });
}

static Call reference_at(const Bytes &b, size_t edition) {
    return repeat([&b, edition] { return reference_open(b.data(), b.size(), edition); });
}

static Call string_of(const Bytes &b, size_t i) {
    return repeat([&b, i] { return qollqamir_view(b.data(), b.size(), 3, QOLLQAMIR_ELEMENT_STRING, i); });
}

static Call llvm_create(const Bytes &b) {
#ifdef WITH_LLVM
    llvm::MemoryBufferRef ref(llvm::StringRef(reinterpret_cast<const char *>(b.data()), b.size()), "");
    auto opened = llvm::object::DXContainer::create(ref);
    require(bool(opened), "LLVM refuses a container");
    return [ref](size_t n) {
        for (size_t i = 0; i < n; i++) {
            auto answer = llvm::object::DXContainer::create(ref);
            bool good = bool(answer);
            asm volatile("" : : "r"(&answer), "r"(good) : "memory");
        }
    };
#else
    (void)b;
    return nullptr;
#endif
}

// ---- tables

struct Row {
    std::string name;
    std::vector<Call> calls;
};

static void real_shaders(const std::filesystem::path &folder) {
    std::vector<std::filesystem::path> paths;
    for (auto &entry : std::filesystem::directory_iterator(folder))
        paths.push_back(entry.path());
    std::sort(paths.begin(), paths.end());
    // For each row and shader: the times of Qollqamir, the independent reader and LLVM, and the two ratios.
    std::vector<std::string> names;
    std::vector<std::vector<std::vector<double>>> found;
    size_t files = 0;
    for (auto &path : paths) {
        Bytes shipped = load(path);
        if (qollqamir_open(shipped.data(), shipped.size(), 3).verdict.number != 0)
            continue;
        files++;
        Parts p = parts_of(shipped);
        Bytes b = p.container();
        require(qollqamir_open(b.data(), b.size(), 3).verdict.number == 0, "a realigned shader does not open");
        auto opening = qollqamir_open(b.data(), b.size(), 3);
        const uint8_t *sections[6];
        size_t lengths[6];
        for (uint32_t s = 0; s < 6; s++) {
            auto span = qollqamir_section(b.data(), b.size(), 3, s);
            sections[s] = b.data() + span.start;
            lengths[s] = span.len;
        }
        auto psv0 = qollqamir_table_part(b.data(), b.size(), reinterpret_cast<const uint8_t *>("PSV0"));
        Bytes out(psv0.size), whole(b.size());
        size_t e = opening.edition_read;
        auto write = [&] {
            return qollqamir_write_psv0(e, sections[0], lengths[0], sections[1], lengths[1], sections[2], lengths[2], sections[3],
                                        lengths[3], sections[4], lengths[4], sections[5], lengths[5], out.data(), out.size());
        };
        require(write().verdict.number == 0 && std::equal(out.begin(), out.end(), b.begin() + psv0.offset + 8), "PSV0 is not written again");
        require(p.into(whole).verdict.number == 0 && whole == b, "the container is not assembled again");
        std::vector<Row> rows = {
            {"open, edition 3", {open_at(b, 3), reference_at(b, 3), llvm_create(b)}},
            {"open, edition 1", {open_at(b, 1), reference_at(b, 1), llvm_create(b)}},
            {"open, edition 3, as shipped", {open_at(shipped, 3), reference_at(shipped, 3), nullptr}},
            {"PSV0 alone, edition 3",
             {repeat([&] { return qollqamir_psv0_open(b.data() + psv0.offset + 8, psv0.size, 3); }), nullptr, nullptr}},
            {"part table",
             {repeat([&] { return qollqamir_table(b.data(), b.size()); }), repeat([&] { return reference_table(b.data(), b.size()); }),
              nullptr}},
            {"runtime info", {repeat([&] { return qollqamir_runtime_info(b.data(), b.size(), 3); }), reference_at(b, 3), llvm_create(b)}},
            {"program report, edition 3",
             {repeat([&] { return qollqamir_program(b.data(), b.size(), 3); }), reference_at(b, 3), llvm_create(b)}},
            {"signature report, ISG1",
             {repeat([&] { return qollqamir_signature(b.data(), b.size(), 3, QOLLQAMIR_ISG1); }),
              repeat([&] { return reference_signature(b.data(), b.size(), 3, QOLLQAMIR_ISG1); }), nullptr}},
            {"first difference, ISG1",
             {repeat([&] { return qollqamir_signature_difference(b.data(), b.size(), 3, QOLLQAMIR_ISG1); }),
              repeat([&] { return reference_difference(b.data(), b.size(), 3, QOLLQAMIR_ISG1, nullptr); }), nullptr}},
            {"root signature report",
             {repeat([&] { return qollqamir_root_signature(b.data(), b.size(), 3); }),
              repeat([&] { return reference_root(b.data(), b.size(), 3); }), nullptr}},
            {"root signature, item 0",
             {repeat([&] { return qollqamir_root_item(b.data(), b.size(), 3, 0); }), nullptr, nullptr}},
            {"string of element 0",
             {string_of(b, 0), repeat([&] { return reference_string(b.data(), b.size(), 3, 0); }), llvm_create(b)}},
            {"write PSV0", {repeat(write), repeat([&] { return reference_write_psv0(e, sections, lengths, out.data(), out.size()); }), nullptr}},
            {"assemble",
             {repeat([&] { return p.into(whole); }), repeat([&] {
                  return reference_assemble(p.names.data(), p.sizes.data(), p.sizes.size(), p.data.data(), p.data.size(), p.digest.data(),
                                            whole.data(), whole.size());
              }),
              nullptr}},
        };
        for (size_t r = 0; r < rows.size(); r++) {
            auto t = measure(rows[r].calls);
            if (files == 1) {
                names.push_back(rows[r].name);
                found.emplace_back(5);
            }
            double values[5] = {t[0], t[1], t[2], t.ratio(0, 1), t.ratio(0, 2)};
            for (int c = 0; c < 5; c++)
                found[r][c].push_back(values[c]);
        }
    }
    printf("\n%zu real shaders: ns a call and ratios, medians over the shaders, and the greatest ratio to LLVM\n", files);
    printf("%-30s %11s %11s %11s %9s %9s %9s\n", "", "qollqamir", "reference", "llvm", "/ref", "/llvm", "greatest");
    for (size_t r = 0; r < names.size(); r++) {
        printf("%-30s", names[r].c_str());
        for (int c = 0; c < 3; c++)
            cell(median(found[r][c]));
        ratio(median(found[r][3]));
        ratio(median(found[r][4]));
        ratio(*std::max_element(found[r][4].begin(), found[r][4].end()));
        printf("\n");
    }
}

// Every call on a container that hands back no table, by its name.
static std::vector<Row> calls_on(const Bytes &b, size_t e) {
    static const uint8_t *name = reinterpret_cast<const uint8_t *>("PSV0");
    const uint8_t *d = b.data();
    size_t n = b.size();
    return {
        {"open", {repeat([=] { return qollqamir_open(d, n, e); })}},
        {"part", {repeat([=] { return qollqamir_part(d, n, e, name); })}},
        {"runtime info", {repeat([=] { return qollqamir_runtime_info(d, n, e); })}},
        {"resource", {repeat([=] { return qollqamir_resource(d, n, e, 0); })}},
        {"element", {repeat([=] { return qollqamir_element(d, n, e, 0); })}},
        {"lengths", {repeat([=] { return qollqamir_lengths(d, n, e); })}},
        {"view", {repeat([=] { return qollqamir_view(d, n, e, QOLLQAMIR_ELEMENT_STRING, 0); })}},
        {"section", {repeat([=] { return qollqamir_section(d, n, e, 2); })}},
        {"program", {repeat([=] { return qollqamir_program(d, n, e); })}},
        {"signature", {repeat([=] { return qollqamir_signature(d, n, e, QOLLQAMIR_ISG1); })}},
        {"signature element", {repeat([=] { return qollqamir_signature_element(d, n, e, QOLLQAMIR_ISG1, 0); })}},
        {"signature name", {repeat([=] { return qollqamir_signature_name(d, n, e, QOLLQAMIR_ISG1, 0); })}},
        {"signature difference", {repeat([=] { return qollqamir_signature_difference(d, n, e, QOLLQAMIR_ISG1); })}},
        {"root signature", {repeat([=] { return qollqamir_root_signature(d, n, e); })}},
        {"root item", {repeat([=] { return qollqamir_root_item(d, n, e, 0); })}},
        {"root range", {repeat([=] { return qollqamir_root_range(d, n, e, 0, 0); })}},
        // These name no edition.
        {"open, default edition", {e > 3 ? nullptr : repeat([=] { return qollqamir_open_default(d, n); })}},
        {"part of the table", {e > 3 ? nullptr : repeat([=] { return qollqamir_table_part(d, n, name); })}},
        {"the table", {e > 3 ? nullptr : repeat([=] { return qollqamir_table(d, n); })}},
        {"reference, open", {reference_at(b, e)}},
    };
}

// Every call on PSV0 data alone.
static std::vector<Row> calls_on_psv0(const Bytes &b, size_t e) {
    const uint8_t *d = b.data();
    size_t n = b.size();
    return {
        {"PSV0, open", {repeat([=] { return qollqamir_psv0_open(d, n, e); })}},
        {"PSV0, runtime info", {repeat([=] { return qollqamir_psv0_runtime_info(d, n, e); })}},
        {"PSV0, resource", {repeat([=] { return qollqamir_psv0_resource(d, n, e, 0); })}},
        {"PSV0, element", {repeat([=] { return qollqamir_psv0_element(d, n, e, 0); })}},
        {"PSV0, lengths", {repeat([=] { return qollqamir_psv0_lengths(d, n, e); })}},
        {"PSV0, view", {repeat([=] { return qollqamir_psv0_view(d, n, e, QOLLQAMIR_ELEMENT_STRING, 0); })}},
        {"PSV0, section", {repeat([=] { return qollqamir_psv0_section(d, n, e, 2); })}},
    };
}

// Prints the calls' times on each file, a column each.
static void refusal_table(const std::vector<std::string> &columns, const std::vector<std::vector<Row>> &files) {
    printf("%-30s", "");
    for (auto &name : columns)
        printf(" %11s", name.c_str());
    printf("\n");
    for (size_t r = 0; r < files[0].size(); r++) {
        printf("%-30s", files[0][r].name.c_str());
        for (auto &rows : files)
            cell(measure(rows[r].calls)[0]);
        printf("\n");
    }
}

static void refusals(const std::filesystem::path &shader) {
    Bytes good = load(shader);
    struct Case {
        const char *name;
        Bytes bytes;
        size_t edition;
        size_t number;
    };
    std::vector<Case> cases(5, Case{"", good, 3, 0});
    cases[0].name = "31 bytes", cases[0].bytes.resize(31), cases[0].number = 1;
    cases[1].name = "wrong magic", cases[1].bytes[3] ^= 1, cases[1].number = 3;
    cases[2].name = "size field", cases[2].bytes[24] ^= 1, cases[2].number = 5;
    cases[3].name = "97 parts", put(cases[3].bytes, 28, 97), cases[3].number = 6;
    cases[4].name = "edition 4", cases[4].edition = 4, cases[4].number = 25;
    std::vector<std::string> names;
    std::vector<std::vector<Row>> files;
    for (auto &c : cases) {
        require(qollqamir_open(c.bytes.data(), c.bytes.size(), c.edition).verdict.number == c.number, c.name);
        require(reference_open(c.bytes.data(), c.bytes.size(), c.edition) == c.number, c.name);
        names.push_back(c.name);
        files.push_back(calls_on(c.bytes, c.edition));
    }
    printf("\nearly refusals, ns a call (target: at most 20 through every call that hands back no table)\n");
    refusal_table(names, files);
    auto part = qollqamir_table_part(good.data(), good.size(), reinterpret_cast<const uint8_t *>("PSV0"));
    Bytes psv0(good.begin() + part.offset + 8, good.begin() + part.offset + 8 + part.size), odd = psv0;
    odd[0] ^= 1;
    require(qollqamir_psv0_open(odd.data(), odd.size(), 3).verdict.number == 12, "an odd S is not refused");
    refusal_table({"S odd", "edition 4"}, {calls_on_psv0(odd, 3), calls_on_psv0(psv0, 4)});
}

// So many parts: DXIL and PSV0 after others with names of their own, or with one name.
static Bytes many_parts(size_t data, const char *one_name = nullptr, int count = 96) {
    Parts p;
    for (int i = 0; i < count - 2; i++) {
        char name[8];
        snprintf(name, sizeof name, "P%03d", i);
        p.add(one_name ? one_name : name, Bytes(data, 1));
    }
    p.add("DXIL", Bytes(4, 1));
    p.add("PSV0", psv0_of(0, 0, 0, Bytes(4, 0), 0));
    return p.container();
}

static void hostile() {
    const uint32_t longest = 16777216, rest = 40 + 12 + 8 + 60 + 4 + 4;
    const uint32_t text = (longest - rest - 4 - 4 - 765 * 16 - 64) / 4 * 4;
    Bytes start(text, 'a'), end(text, 'a'), none(text, 'a');
    start[15] = 0;
    end[text - 1] = 0;
    std::vector<std::pair<std::string, Bytes>> files = {
        {"96 parts, empty", many_parts(0)},
        {"96 parts, 16 bytes each", many_parts(16)},
        {"96 parts, 64 bytes each", many_parts(64)},
        {"96 parts, 94 of them PRIV", many_parts(64, "PRIV")},
        {"16 MB strings, zero at start", with_psv0(psv0_of(0, 765, 0, start, 1))},
        {"16 MB strings, zero at end", with_psv0(psv0_of(0, 765, 0, end, 1))},
        {"16 MB strings, no zero", with_psv0(psv0_of(0, 765, 0, none, 1))},
        {"R at its largest", with_psv0(psv0_of((longest - rest - 64) / 24, 0, 0, Bytes(4, 0), 0))},
        {"N at its largest", with_psv0(psv0_of(0, 765, 0, Bytes(16, 0), (longest - rest - 765 * 16 - 128) / 4))},
    };
    double usual = round_ns;
    round_ns = 1e6;
    printf("\nhostile files, ns a call beside a plain pass over the same bytes (target: at most four plain passes)\n");
    printf("%-30s %11s %11s %11s %11s %9s %9s %9s\n", "", "open", "string 7", "pass", "vectorized", "open", "string", "open/vec");
    for (auto &[name, b] : files) {
        auto verdict = qollqamir_open(b.data(), b.size(), 3).verdict;
        require(verdict.number == reference_open(b.data(), b.size(), 3), name);
        require(verdict.number == (name.find("no zero") == std::string::npos ? 0u : 22u), name);
        bool elements = qollqamir_view(b.data(), b.size(), 3, QOLLQAMIR_ELEMENT_STRING, 7).verdict.number == 0;
        auto t = measure({open_at(b, 3), elements ? string_of(b, 7) : nullptr,
                          repeat([&b = b] { return pass_bytewise(b.data(), b.size()); }),
                          repeat([&b = b] { return pass_vectorized(b.data(), b.size()); })});
        printf("%-30s", name.c_str());
        for (size_t k = 0; k < 4; k++)
            cell(t[k]);
        ratio(t.ratio(0, 2));
        ratio(t.ratio(1, 2));
        ratio(t.ratio(0, 3));
        printf("\n");
    }
    // Writing as much as may be written.
    Bytes b = with_psv0(psv0_of(0, 765, 0, start, 1));
    Parts p = parts_of(b);
    const uint8_t *s[6];
    size_t n[6];
    for (uint32_t k = 0; k < 6; k++) {
        auto span = qollqamir_section(b.data(), b.size(), 3, k);
        s[k] = b.data() + span.start;
        n[k] = span.len;
    }
    Bytes out(longest);
    auto write = [&] {
        return qollqamir_write_psv0(3, s[0], n[0], s[1], n[1], s[2], n[2], s[3], n[3], s[4], n[4], s[5], n[5], out.data(), out.size());
    };
    require(write().verdict.number == 0, "a long PSV0 is not written");
    require(p.into(out).verdict.number == 0, "a long container is not assembled");
    printf("\nwriting 16 MB, ns a call\n%-30s %11s %11s %11s %9s\n", "", "qollqamir", "pass", "memcpy", "/pass");
    Call pass = repeat([&] { return pass_bytewise(b.data(), b.size()); });
    Call copy = repeat([&] { return memcpy(out.data(), b.data(), b.size()); });
    for (auto &[name, call] : std::vector<std::pair<const char *, Call>>{{"write PSV0", repeat(write)}, {"assemble", repeat([&] { return p.into(out); })}}) {
        auto t = measure({call, pass, copy});
        printf("%-30s", name);
        for (size_t k = 0; k < 3; k++)
            cell(t[k]);
        ratio(t.ratio(0, 1));
        printf("\n");
    }
    round_ns = usual;
}

// A signature of 262,143 elements that name these places in turn, with its elements before or after 8 MB of text.
static Bytes signature_of(const std::vector<uint32_t> &names, const Bytes &text, bool elements_first) {
    const uint32_t count = 262143;
    Bytes b;
    append(b, count);
    append(b, elements_first ? 8 : uint32_t(8 + text.size()));
    if (!elements_first)
        b.insert(b.end(), text.begin(), text.end());
    size_t at = b.size();
    b.resize(at + 32 * size_t(count), 'e');
    for (uint32_t e = 0; e < count; e++)
        put(b, at + 32 * e + 4, names[e % names.size()]);
    if (elements_first)
        b.insert(b.end(), text.begin(), text.end());
    return b;
}

// Long signature parts: judged, and compared with PSV0's names.
static void signatures() {
    const uint32_t text = 8388000, after = 8 + 32 * 262143;
    Bytes end(text, 'a'), none(text, 'a');
    end[text - 1] = 0;
    auto with = [](const Bytes &isg1, const Bytes &psv0) {
        Parts p;
        p.add("DXIL", Bytes(4, 1));
        p.add("PSV0", psv0);
        p.add("ISG1", isg1);
        return p.container();
    };
    Bytes small = psv0_of(0, 0, 0, Bytes(4, 0), 0);
    // 255 names in each list, all good and all the same text, as long as fits beside them.
    Bytes same(5000000, 'a');
    same[same.size() - 1] = 0;
    Bytes psv0 = psv0_of(0, 765, 0, same, 1);
    for (size_t e = 0; e < 765; e++)
        put(psv0, psv0.size() - 765 * 16 + 16 * e, 0);
    Bytes alike;
    append(alike, 255);
    append(alike, 8);
    for (size_t e = 0; e < 255; e++) {
        alike.resize(alike.size() + 32, 0);
        put(alike, alike.size() - 28, 8 + 32 * 255);
    }
    alike.insert(alike.end(), same.begin(), same.end());
    struct Case {
        std::string name;
        Bytes bytes;
        size_t number, found;
    };
    std::vector<Case> cases = {
        {"text of 8 MB, zero at its end", with(signature_of({after, after + 9, after + 4000000}, end, true), small), 0, 1},
        {"the same text before them", with(signature_of({8, 17, 4000000}, end, false), small), 0, 1},
        {"text of 8 MB, no zero", with(signature_of({after, after + 9}, none, true), small), 45, 0},
        {"elements without names", with(signature_of({0}, end, true), small), 0, 0},
        {"255 names of 5 MB, all equal", with(alike, psv0), 0, 0},
    };
    double usual = round_ns;
    round_ns = 1e6;
    printf("\nsignature parts of 16 MB, ns a call beside a plain pass over the container (target for the report: at most six plain passes)\n");
    printf("%-30s %11s %11s %11s %11s %9s %9s\n", "", "report", "difference", "ref. report", "pass", "report", "diff.");
    for (auto &c : cases) {
        const Bytes &b = c.bytes;
        require(b.size() <= 16777216 && qollqamir_open(b.data(), b.size(), 3).verdict.number == 0, c.name + " does not open");
        auto report = qollqamir_signature(b.data(), b.size(), 3, QOLLQAMIR_ISG1);
        auto difference = qollqamir_signature_difference(b.data(), b.size(), 3, QOLLQAMIR_ISG1);
        size_t found = 0;
        require(report.verdict.number == c.number && reference_signature(b.data(), b.size(), 3, QOLLQAMIR_ISG1) == c.number, c.name);
        require(reference_difference(b.data(), b.size(), 3, QOLLQAMIR_ISG1, &found) == c.number && found == c.found, c.name);
        require(difference.found == c.found, c.name);
        auto t = measure({repeat([&] { return qollqamir_signature(b.data(), b.size(), 3, QOLLQAMIR_ISG1); }),
                          repeat([&] { return qollqamir_signature_difference(b.data(), b.size(), 3, QOLLQAMIR_ISG1); }),
                          repeat([&] { return reference_signature(b.data(), b.size(), 3, QOLLQAMIR_ISG1); }),
                          repeat([&] { return pass_bytewise(b.data(), b.size()); })});
        printf("%-30s", c.name.c_str());
        for (size_t k = 0; k < 4; k++)
            cell(t[k]);
        ratio(t.ratio(0, 3));
        ratio(t.ratio(1, 3));
        printf("\n");
    }
    round_ns = usual;
}

// Numbers that look random and are the same in every run.
struct Numbers {
    uint64_t state = 1;
    uint32_t next() {
        state = state * 6364136223846793005u + 1442695040888963407u;
        return uint32_t(state >> 33);
    }
};

// Well-formed text with sequences of these lengths, in no order, filled up with letters to a length that ends with a zero.
static Bytes text_of(size_t len, const std::vector<size_t> &lengths) {
    static const char *const letters[] = {"a", "\xc3\xa9", "\xe2\x82\xac", "\xf0\x9f\x98\x80"};
    Numbers random;
    Bytes b;
    while (b.size() + 5 < len) {
        const char *letter = letters[lengths[random.next() % lengths.size()] - 1];
        b.insert(b.end(), letter, letter + strlen(letter));
    }
    b.resize(len - 1, 'a');
    b.push_back(0);
    return b;
}

// Places at which a sequence begins, all over a part of some text.
static std::vector<uint32_t> places_in(const Bytes &text, size_t from, size_t to, size_t count) {
    Numbers random;
    std::vector<uint32_t> places;
    while (places.size() < count) {
        size_t at = from + random.next() % (to - from);
        while (at > from && text[at] / 64 == 2)
            at--;
        places.push_back(uint32_t(at));
    }
    return places;
}

struct Strings {
    std::string name;
    Bytes text;
    std::vector<uint32_t> places;
    // What judging the names gives, and at which of them.
    bool good;
    size_t place;
};

// Long texts, with so many references into each.
static std::vector<Strings> long_strings(size_t len, size_t count) {
    std::vector<Strings> all;
    auto add = [&](const std::string &name, const Bytes &text, const std::vector<uint32_t> &places) {
        all.push_back({name, text, places, true, 0});
    };
    auto whole = [&](const std::string &name, const Bytes &text) { add(name, text, places_in(text, 0, len - 1, count)); };
    Bytes ascii = text_of(len, {1}), mixed = text_of(len, {1, 2, 3, 4});
    whole("ASCII, one string", ascii);
    whole("two bytes a letter", text_of(len, {2}));
    whole("three bytes a letter", text_of(len, {3}));
    whole("four bytes a letter", text_of(len, {4}));
    whole("mixed letters, one string", mixed);
    // Long strings in turn.
    Bytes four = mixed;
    for (size_t k = 1; k < 4; k++) {
        size_t at = len * k / 4;
        std::fill(four.begin() + at, four.begin() + at + 4, 'a');
        four[at + 3] = 0;
        while (four[--at] / 64 == 2)
            four[at] = 'a';
        four[at] = 'a';
    }
    std::vector<uint32_t> turns(count);
    for (size_t k = 0; k < 4; k++) {
        auto places = places_in(four, len * k / 4 + 4, len * (k + 1) / 4 - 8, count / 4 + 1);
        for (size_t i = k; i < count; i += 4)
            turns[i] = places[i / 4];
    }
    add("four strings in turn", four, turns);
    // One byte that is no sequence: past every reference, before them all, at the end of the last string alone.
    Bytes fault = ascii;
    fault[len - 3] = 0;
    fault[len - 2] = 0x80;
    add("ASCII, fault past them all", fault, places_in(fault, 0, len - 3, count));
    fault = mixed;
    fault[0] = 0x80;
    add("mixed, fault before them all", fault, places_in(fault, 8, len - 1, count));
    fault[0] = 'a';
    fault[len - 2] = 0x80;
    all.push_back({"mixed, fault at the very end", fault, places_in(fault, 0, len - 5, count), false, 0});
    fault[len - 3] = 0;
    auto places = places_in(fault, 0, len - 8, count);
    places[count - 1] = uint32_t(len - 2);
    all.push_back({"mixed, then a bad short one", fault, places, false, count - 1});
    // Bytes that are no text: each reference leads to a zero byte.
    Numbers random;
    Bytes noise(len);
    std::vector<uint32_t> zeros;
    for (auto &byte : noise)
        byte = uint8_t(random.next());
    noise[len - 1] = 0;
    while (zeros.size() < count) {
        size_t at = random.next() % len;
        while (noise[at])
            at++;
        zeros.push_back(uint32_t(at));
    }
    add("random bytes", noise, zeros);
    Bytes following(len, 0x80);
    following[len - 1] = 0;
    add("bytes that follow alone", following, std::vector<uint32_t>(count, uint32_t(len - 1)));
    return all;
}

// Whether strings are well formed, for as many references as there can be: opening a container, and a report on a signature part.
static void utf8() {
    double usual = round_ns;
    round_ns = 1e6;
    printf("\nstrings of 16 MB, 765 references and the entry name, ns a call beside a plain pass (target for an opening: at most four plain passes)\n");
    printf("%-30s %11s %11s %11s %11s %9s %9s %9s\n", "", "open", "string 7", "pass", "vectorized", "open", "string", "open/vec");
    for (auto &c : long_strings(16764000, 765)) {
        Bytes psv0 = psv0_of(0, 765, 0, c.text, 1);
        put(psv0, 4 + 48, c.places[0]);
        for (size_t e = 0; e < 765; e++)
            put(psv0, psv0.size() - 765 * 16 + 16 * e, c.places[e]);
        Bytes b = with_psv0(psv0);
        auto verdict = qollqamir_open(b.data(), b.size(), 3).verdict;
        require(b.size() <= 16777216 && verdict.number == (c.good ? 0u : 22u) && verdict.place == c.place, c.name);
        require(verdict.number == reference_open(b.data(), b.size(), 3), c.name);
        auto t = measure({open_at(b, 3), c.good ? string_of(b, 7) : nullptr, repeat([&] { return pass_bytewise(b.data(), b.size()); }),
                          repeat([&] { return pass_vectorized(b.data(), b.size()); })});
        printf("%-30s", c.name.c_str());
        for (size_t k = 0; k < 4; k++)
            cell(t[k]);
        ratio(t.ratio(0, 2));
        ratio(t.ratio(1, 2));
        ratio(t.ratio(0, 3));
        printf("\n");
    }
    printf("\nsignature parts of 16 MB, 262,143 names into 8 MB, ns a call beside a plain pass (target for a report: at most six plain passes)\n");
    printf("%-30s %11s %11s %11s %9s\n", "", "report", "ref. report", "pass", "report");
    auto report_row = [](const std::string &name, const Bytes &isg1, size_t number, size_t place) {
        Parts p;
        p.add("DXIL", Bytes(4, 1));
        p.add("PSV0", psv0_of(0, 0, 0, Bytes(4, 0), 0));
        p.add("ISG1", isg1);
        Bytes b = p.container();
        auto verdict = qollqamir_signature(b.data(), b.size(), 3, QOLLQAMIR_ISG1).verdict;
        require(b.size() <= 16777216 && verdict.number == number && verdict.place == place, name);
        require(reference_signature(b.data(), b.size(), 3, QOLLQAMIR_ISG1) == number, name);
        auto t = measure({repeat([&] { return qollqamir_signature(b.data(), b.size(), 3, QOLLQAMIR_ISG1); }),
                          repeat([&] { return reference_signature(b.data(), b.size(), 3, QOLLQAMIR_ISG1); }),
                          repeat([&] { return pass_bytewise(b.data(), b.size()); })});
        printf("%-30s", name.c_str());
        for (size_t k = 0; k < 3; k++)
            cell(t[k]);
        ratio(t.ratio(0, 2));
        printf("\n");
    };
    for (auto &c : long_strings(8388000, 262143)) {
        for (auto &place : c.places)
            place += 8 + 32 * 262143;
        report_row(c.name, signature_of(c.places, c.text, true), c.good ? 0 : 52, c.place);
    }
    // As many names as there can be, into the elements themselves: letters of two bytes up to the zero in the next element's name offset.
    const uint32_t count = 524200;
    Bytes most(8 + 32 * size_t(count), 'e');
    put(most, 0, count);
    put(most, 4, 8);
    Numbers random;
    for (uint32_t e = 0; e < count; e++) {
        put(most, 8 + 32 * e + 4, 16 + 32 * (random.next() % 4) + 256 * (1 + random.next() % 127) + 65536 * (1 + random.next() % 126));
        for (size_t k = 8; k < 32; k += 2)
            most[8 + 32 * e + k] = 0xc3, most[8 + 32 * e + k + 1] = 0xa9;
    }
    report_row("524,200 names in the elements", most, 0, 0);
    round_ns = usual;
}

// Root signature data: counts that are stated, parameters of a type after the header, whose data are the header's first bytes, and samplers.
static Bytes root_of(uint32_t parameters, uint32_t stated, uint32_t type, uint32_t samplers) {
    Bytes b;
    for (uint32_t word : {2u, stated, 24u, samplers, 24 + 12 * parameters, 0u})
        append(b, word);
    // A table at byte 20 has no ranges, at offset 0 or at the first parameter's type.
    for (uint32_t i = 0; i < parameters; i++)
        for (uint32_t word : {type, i, 20u})
            append(b, word);
    b.resize(b.size() + 52 * size_t(samplers), 3);
    return b;
}

// Long root signatures, of 8 and 16 MB: time in proportion to the data, whatever the counts.
static void roots() {
    struct Case {
        std::string name;
        Bytes bytes;
        size_t number;
    };
    auto with = [](const Bytes &rts0) {
        Parts p;
        p.add("DXIL", Bytes(4, 1));
        p.add("PSV0", psv0_of(0, 0, 0, Bytes(4, 0), 0));
        p.add("RTS0", rts0);
        return p.container();
    };
    std::vector<Case> cases;
    for (uint32_t mb : {8, 16}) {
        std::string of = " of " + std::to_string(mb) + " MB";
        uint32_t n = mb * 87300, m = mb * 20100;
        cases.push_back({"constants" + of, with(root_of(n, n, 1, 0)), 0});
        cases.push_back({"tables" + of, with(root_of(n, n, 0, 0)), 0});
        cases.push_back({"descriptors" + of, with(root_of(n, n, 3, 0)), 0});
        cases.push_back({"samplers" + of, with(root_of(0, 0, 0, m)), 0});
        cases.push_back({"2^32 - 1 tables stated," + of.substr(3), with(root_of(n, UINT32_MAX, 0, 0)), 48});
    }
    // What it costs that a count near 2^32 is stated and the first item lies outside.
    cases.push_back({"2^32 - 1 stated, 24 bytes", with(root_of(0, UINT32_MAX, 0, 0)), 48});
    double usual = round_ns;
    round_ns = 1e6;
    printf("\nroot signatures, ns a call beside a plain pass over the container\n");
    printf("%-30s %11s %11s %11s %9s %9s\n", "", "report", "ref. report", "pass", "report", "/ref");
    for (auto &c : cases) {
        const Bytes &b = c.bytes;
        require(b.size() <= 16777216 && qollqamir_open(b.data(), b.size(), 3).verdict.number == 0, c.name + " does not open");
        require(qollqamir_root_signature(b.data(), b.size(), 3).verdict.number == c.number, c.name);
        require(reference_root(b.data(), b.size(), 3) == c.number, c.name);
        auto t = measure({repeat([&] { return qollqamir_root_signature(b.data(), b.size(), 3); }),
                          repeat([&] { return reference_root(b.data(), b.size(), 3); }),
                          repeat([&] { return pass_bytewise(b.data(), b.size()); })});
        printf("%-30s", c.name.c_str());
        for (size_t k = 0; k < 3; k++)
            cell(t[k]);
        ratio(t.ratio(0, 2));
        ratio(t.ratio(0, 1));
        printf("\n");
    }
    round_ns = usual;
}

// Settings files of numbers of one and of five groups: time in proportion to the rows, whatever is asked.
static void settings() {
    struct Case {
        std::string name;
        std::vector<uint32_t> rows;
    };
    std::vector<Case> cases;
    for (bool wide : {false, true})
        for (uint32_t n : {1, 8, 64, 512}) {
            Case c{std::to_string(n) + (wide ? " rows, five groups" : " rows, one group"), {}};
            for (uint32_t i = 0; i < n; i++)
                for (uint32_t number : {wide ? UINT32_MAX - n + i : i * 127 / n, 2u, wide ? UINT32_MAX - i : i % 128})
                    c.rows.push_back(number);
            cases.push_back(c);
        }
    printf("\nsettings files, ns a call\n");
    printf("%-24s %9s %11s %11s %11s %11s %11s %11s %11s\n", "", "bytes", "read", "value", "last row", "write", "ref. read", "ref. value",
           "ref. write");
    for (auto &c : cases) {
        Bytes out(8192);
        auto w = qollqamir_write_settings(c.rows.data(), c.rows.size(), out.data(), out.size());
        require(w.verdict.number == 0, c.name);
        Bytes b(out.begin(), out.begin() + w.len);
        size_t last = c.rows.size() / 3 - 1;
        uint32_t value = c.rows.back();
        require(qollqamir_settings_read(b.data(), b.size()).rows == last + 1, c.name);
        require(qollqamir_settings_value(b.data(), b.size(), 2, UINT32_MAX).setting.value == value, c.name);
        require(qollqamir_settings_row(b.data(), b.size(), last).value == value, c.name);
        require(reference_settings(b.data(), b.size()) == 0, c.name);
        auto t = measure({repeat([&] { return qollqamir_settings_read(b.data(), b.size()); }),
                          repeat([&] { return qollqamir_settings_value(b.data(), b.size(), 2, UINT32_MAX); }),
                          repeat([&] { return qollqamir_settings_row(b.data(), b.size(), last); }),
                          repeat([&] { return qollqamir_write_settings(c.rows.data(), c.rows.size(), out.data(), out.size()); }),
                          repeat([&] { return reference_settings(b.data(), b.size()); }),
                          repeat([&] { return reference_settings_value(b.data(), b.size(), 2, UINT32_MAX); }),
                          repeat([&] { return reference_write_settings(c.rows.data(), c.rows.size(), out.data(), out.size()); })});
        printf("%-24s %9zu", c.name.c_str(), b.size());
        for (size_t k = 0; k < 7; k++)
            cell(t[k]);
        printf("\n");
    }
}

// Figures: one container more beside a bare opening, and beside the lookup of PSV0 by which it is opened. The figures are carried from call to
// call, and started again when they are full.
static void figures(const std::filesystem::path &folder) {
    std::vector<std::pair<std::string, Bytes>> files;
    for (auto name : {"VertexShader_YUV", "PixelShader_Colors", "RootSig_Color"})
        files.push_back({name, load(folder / ("sdl_D3D12_" + std::string(name) + ".dxbc"))});
    files.push_back({"31 bytes", Bytes(31)});
    files.push_back({"1 MB of strings", with_psv0(psv0_of(0, 1, 0, Bytes(1 << 20, 0), 1))});
    printf("\nfigures, ns a call\n");
    printf("%-24s %11s %11s %11s %11s %9s\n", "", "open", "part PSV0", "add", "ref. add", "/open");
    const uint8_t *name = reinterpret_cast<const uint8_t *>("PSV0");
    for (auto &[title, b] : files) {
        auto kept = qollqamir_figures_start(1);
        void *other = reference_figures_start(1);
        auto add = [&, &b = b] {
            auto a = qollqamir_figures_add(kept, b.data(), b.size());
            kept = a.answer == QOLLQAMIR_COUNTED ? a.figures : qollqamir_figures_start(1);
            return a.verdict;
        };
        require(add().number == qollqamir_open(b.data(), b.size(), 1).verdict.number && kept.opened == 1, title);
        require(reference_figures_add(other, b.data(), b.size()) == qollqamir_open(b.data(), b.size(), 1).verdict.number, title);
        auto t = measure({open_at(b, 1), repeat([&, &b = b] { return qollqamir_part(b.data(), b.size(), 1, name); }), repeat(add),
                          repeat([&, &b = b] { return reference_figures_add(other, b.data(), b.size()); })});
        printf("%-24s", title.c_str());
        for (size_t k = 0; k < 4; k++)
            cell(t[k]);
        ratio(t.ratio(2, 0));
        printf("\n");
    }
    auto one = qollqamir_figures_start(1), two = one;
    one = qollqamir_figures_add(one, files[0].second.data(), files[0].second.size()).figures;
    auto t = measure({repeat([&] { return qollqamir_figures_join(two, one); }), repeat([&] { return two = one; })});
    printf("%-24s %11.1f, copying figures (%zu bytes) %.1f\n", "join", t[0], sizeof one, t[1]);
}

// Queries by places beside those that open the bytes, each the worst over the real shaders; and the same by places with the shader's PSV0 part in a
// container of 16 MB.
static void places(const std::filesystem::path &folder) {
    struct Row {
        std::string name;
        std::vector<double> by, fresh, large;
    };
    std::vector<Row> rows;
    for (auto &entry : std::filesystem::directory_iterator(folder)) {
        Bytes b = load(entry.path());
        auto o = qollqamir_open_places(b.data(), b.size(), 3);
        if (o.verdict.number != 0)
            continue;
        // The same container with more bytes at its end.
        Bytes l = b;
        l.resize(16777216);
        for (size_t i = 0; i < 4; i++)
            l[24 + i] = static_cast<uint8_t>(l.size() >> (8 * i));
        auto large = qollqamir_open_places(l.data(), l.size(), 3).places;
        require(memcmp(&large, &o.places, sizeof large) == 0, "other places");
        size_t row = 0;
        auto add = [&](const std::string &name, auto by, auto fresh) {
            auto call = by;
            auto t = measure({repeat([&] { return call(b); }), repeat([&] { return fresh(); }), repeat([&] { return call(l); })});
            if (rows.size() == row)
                rows.push_back({name, {}, {}, {}});
            rows[row].by.push_back(t[0]);
            rows[row].fresh.push_back(t[1]);
            rows[row].large.push_back(t[2]);
            row++;
        };
        auto p = o.places;
        add("runtime info", [&](const Bytes &x) { return qollqamir_places_runtime_info(x.data(), x.size(), p); },
            [&] { return qollqamir_runtime_info(b.data(), b.size(), 3); });
        add("resource 0", [&](const Bytes &x) { return qollqamir_places_resource(x.data(), x.size(), p, 0); },
            [&] { return qollqamir_resource(b.data(), b.size(), 3, 0); });
        add("element 0", [&](const Bytes &x) { return qollqamir_places_element(x.data(), x.size(), p, 0); },
            [&] { return qollqamir_element(b.data(), b.size(), 3, 0); });
        add("lengths", [&](const Bytes &x) { return qollqamir_places_lengths(x.data(), x.size(), p); },
            [&] { return qollqamir_lengths(b.data(), b.size(), 3); });
        auto view = [&](const std::string &name, uint32_t kind, size_t number) {
            add(name, [&, kind, number](const Bytes &x) { return qollqamir_places_view(x.data(), x.size(), p, kind, number); },
                [&, kind, number] { return qollqamir_view(b.data(), b.size(), 3, kind, number); });
        };
        view("string of element 0", QOLLQAMIR_ELEMENT_STRING, 0);
        view("string of element 1", QOLLQAMIR_ELEMENT_STRING, 1);
        view("string of element 2", QOLLQAMIR_ELEMENT_STRING, 2);
        view("array of element 0", QOLLQAMIR_ELEMENT_ARRAY, 0);
        view("stage union", QOLLQAMIR_STAGE_UNION, 0);
        for (size_t m : {0, 4, 5, 8, 9, 10})
            view("mask " + std::to_string(m), QOLLQAMIR_MASK, m);
        add("masks, handed out", [&](const Bytes &x) { return qollqamir_places_section(x.data(), x.size(), p, QOLLQAMIR_MASKS); },
            [&] { return qollqamir_section(b.data(), b.size(), 3, QOLLQAMIR_MASKS); });
        add("open with places", [&](const Bytes &x) { return qollqamir_open_places(x.data(), x.size(), 3); },
            [&] { return qollqamir_open(b.data(), b.size(), 3); });
    }
    printf("\nby places, ns a call, the greatest over the real shaders\n");
    printf("%-24s %11s %11s %11s\n", "", "by places", "opening", "in 16 MB");
    for (auto &r : rows) {
        printf("%-24s", r.name.c_str());
        cell(*std::max_element(r.by.begin(), r.by.end()));
        cell(*std::max_element(r.fresh.begin(), r.fresh.end()));
        cell(*std::max_element(r.large.begin(), r.large.end()));
        printf("\n");
    }
}

// Replacing the PSV0 part of a real shader by itself, and that of a container of 16 MB, beside copying as many bytes.
static void replacing(const std::filesystem::path &folder) {
    printf("\nreplacing PSV0 by itself, ns a call\n");
    printf("%-24s %9s %11s %11s\n", "", "bytes", "replace", "copy");
    Bytes shader = load(folder / "sdl_D3D12_VertexShader_YUV.dxbc");
    Bytes large = shader;
    large.resize(16777216);
    for (size_t i = 0; i < 4; i++)
        large[24 + i] = static_cast<uint8_t>(large.size() >> (8 * i));
    const uint8_t *name = reinterpret_cast<const uint8_t *>("PSV0");
    for (auto *b : {&shader, &large}) {
        auto part = qollqamir_part(b->data(), b->size(), 3, name);
        Bytes data(b->begin() + part.offset + 8, b->begin() + part.offset + 8 + part.size), out(b->size());
        auto r = qollqamir_replace_psv0(b->data(), b->size(), 3, data.data(), data.size(), out.data(), out.size());
        require(r.verdict.number == 0 && r.len == b->size() && out == *b, "the shader is not replaced by itself");
        auto t = measure({repeat([&] { return qollqamir_replace_psv0(b->data(), b->size(), 3, data.data(), data.size(), out.data(), out.size()); }),
                          repeat([&] { return memcpy(out.data(), b->data(), b->size()); })});
        printf("%-24s %9zu", b == &shader ? "a vertex shader" : "the same, 16 MB long", b->size());
        cell(t[0]);
        cell(t[1]);
        printf("\n");
    }
}

// The name check: the opening, which doesn't report, and the table, without and with the pairs counted. Where a name stands twice, part k has the
// name of part j.
static void name_check() {
    struct Case {
        int count, j, k;
    };
    printf("\nthe name check, ns a call, parts without data\n");
    printf("%-34s %11s %11s %11s %11s\n", "", "pairs", "open", "the table", "counted");
    spread = true;
    for (auto [count, j, k] : {Case{2, 0, 0}, {8, 0, 0}, {16, 0, 0}, {32, 0, 0}, {96, 0, 0}, {8, 0, 5}, {8, 4, 5}, {96, 0, 93}, {96, 92, 93}}) {
        Bytes b = many_parts(0, nullptr, count);
        auto parts = qollqamir_table(b.data(), b.size());
        if (k)
            put(b, parts.offsets[k], parts.names[j]);
        auto counted = qollqamir_table_counted(b.data(), b.size());
        require(counted.verdict.number == (k ? 9u : 0u) && counted.verdict.place == size_t(k), "the verdict of the name check");
        int pairs = k ? k * (k - 1) / 2 + j + 1 : count * (count - 1) / 2;
        require(counted.pairs.set == 1 && counted.pairs.value == uint32_t(pairs), "the pairs that are counted");
        auto t = measure({open_at(b, 3), repeat([&] { return qollqamir_table(b.data(), b.size()); }),
                          repeat([&] { return qollqamir_table_counted(b.data(), b.size()); })});
        char name[40];
        snprintf(name, sizeof name, k ? "%d parts, %d named as %d" : "%d parts", count, k, j);
        printf("%-34s %11d", name, pairs);
        for (size_t c = 0; c < 3; c++)
            cell(t[c]);
        printf("\n");
    }
    spread = false;
}

// What handing back a table costs: the table of a file that the first check refuses, beside a call that hands back 40.
static void handing_back(const std::filesystem::path &shader) {
    Bytes b = load(shader);
    const uint8_t *name = reinterpret_cast<const uint8_t *>("PSV0");
    qollqamir_parts from = qollqamir_table(b.data(), b.size()), to;
    auto t = measure({repeat([&] { return qollqamir_table(b.data(), b.size()); }),
                      repeat([&] { return qollqamir_table_part(b.data(), b.size(), name); }),
                      repeat([&] { return memset(&to, 0, sizeof to); }), repeat([&] { return memcpy(&to, &from, sizeof to); })});
    printf("\nhanding back, ns a call: the table (%zu bytes) %.1f, one part of it (%zu bytes) %.1f, memset of a table %.1f, memcpy %.1f\n",
           sizeof to, t[0], sizeof(qollqamir_found), t[1], t[2], t[3]);
}

#ifdef WITH_BEFORE
extern "C" {
qollqamir_opening before_qollqamir_open(const uint8_t *, size_t, size_t);
qollqamir_opening before_qollqamir_psv0_open(const uint8_t *, size_t, size_t);
// The table before it had its pairs.
struct before_parts {
    qollqamir_verdict verdict;
    size_t count;
    uint32_t entries[5][96];
};
before_parts before_qollqamir_table(const uint8_t *, size_t);
qollqamir_found before_qollqamir_table_part(const uint8_t *, size_t, const uint8_t *);
qollqamir_found before_qollqamir_part(const uint8_t *, size_t, size_t, const uint8_t *);
qollqamir_info before_qollqamir_runtime_info(const uint8_t *, size_t, size_t);
qollqamir_element_record before_qollqamir_element(const uint8_t *, size_t, size_t, size_t);
qollqamir_program_report before_qollqamir_program(const uint8_t *, size_t, size_t);
qollqamir_signature_report before_qollqamir_signature(const uint8_t *, size_t, size_t, uint32_t);
qollqamir_written before_qollqamir_assemble(const uint8_t *, size_t, const uint32_t *, size_t, const uint8_t *, size_t, const uint8_t *, size_t,
                                            uint8_t *, size_t);
qollqamir_span before_qollqamir_view(const uint8_t *, size_t, size_t, uint32_t, size_t);
qollqamir_written before_qollqamir_write_psv0(size_t, const uint8_t *, size_t, const uint8_t *, size_t, const uint8_t *, size_t, const uint8_t *,
                                              size_t, const uint8_t *, size_t, const uint8_t *, size_t, uint8_t *, size_t);
}

// Openings, lookups, refusals and writers now and before, in turns on the same bytes; of the real shaders the medians over them, and the greatest
// ratio.
static void beside_before(const std::filesystem::path &folder) {
    struct Pair {
        std::string name;
        std::vector<double> now, before, ratio;
    };
    std::vector<Pair> pairs;
    auto add = [&](const std::string &name, const Call &now, const Call &before) {
        auto t = measure({now, before});
        auto it = std::find_if(pairs.begin(), pairs.end(), [&](const Pair &p) { return p.name == name; });
        if (it == pairs.end())
            it = pairs.insert(it, Pair{name, {}, {}, {}});
        it->now.push_back(t[0]);
        it->before.push_back(t[1]);
        it->ratio.push_back(t.ratio(0, 1));
    };
    auto all = [&](const char *open, const char *alone, const char *array, const Bytes &b) {
        require(qollqamir_open(b.data(), b.size(), 3).verdict.number == 0, open);
        require(before_qollqamir_open(b.data(), b.size(), 3).verdict.number == 0, open);
        auto psv0 = qollqamir_table_part(b.data(), b.size(), reinterpret_cast<const uint8_t *>("PSV0"));
        const uint8_t *data = b.data() + psv0.offset + 8;
        size_t size = psv0.size;
        add(open, open_at(b, 3), repeat([&] { return before_qollqamir_open(b.data(), b.size(), 3); }));
        add(alone, repeat([=] { return qollqamir_psv0_open(data, size, 3); }), repeat([=] { return before_qollqamir_psv0_open(data, size, 3); }));
        add(array, repeat([&] { return qollqamir_view(b.data(), b.size(), 3, QOLLQAMIR_ELEMENT_ARRAY, 0); }),
            repeat([&] { return before_qollqamir_view(b.data(), b.size(), 3, QOLLQAMIR_ELEMENT_ARRAY, 0); }));
    };
    const uint8_t *named = reinterpret_cast<const uint8_t *>("RTS0");
    auto lookups = [&](const std::string &files, const Bytes &b) {
        const uint8_t *d = b.data();
        size_t n = b.size();
        spread = true;
        add(files + ", the table", repeat([=] { return qollqamir_table(d, n); }), repeat([=] { return before_qollqamir_table(d, n); }));
        add(files + ", the table, counted", repeat([=] { return qollqamir_table_counted(d, n); }),
            repeat([=] { return before_qollqamir_table(d, n); }));
        spread = false;
        add(files + ", part of the table", repeat([=] { return qollqamir_table_part(d, n, named); }),
            repeat([=] { return before_qollqamir_table_part(d, n, named); }));
        add(files + ", part", repeat([=] { return qollqamir_part(d, n, 3, named); }),
            repeat([=] { return before_qollqamir_part(d, n, 3, named); }));
        add(files + ", runtime info", repeat([=] { return qollqamir_runtime_info(d, n, 3); }),
            repeat([=] { return before_qollqamir_runtime_info(d, n, 3); }));
        add(files + ", element 0", repeat([=] { return qollqamir_element(d, n, 3, 0); }),
            repeat([=] { return before_qollqamir_element(d, n, 3, 0); }));
        add(files + ", program", repeat([=] { return qollqamir_program(d, n, 3); }),
            repeat([=] { return before_qollqamir_program(d, n, 3); }));
        add(files + ", signature", repeat([=] { return qollqamir_signature(d, n, 3, QOLLQAMIR_ISG1); }),
            repeat([=] { return before_qollqamir_signature(d, n, 3, QOLLQAMIR_ISG1); }));
    };
    // The PSV0 of a container, written again.
    auto writes = [&](const char *name, const Bytes &b) {
        size_t e = qollqamir_open(b.data(), b.size(), 3).edition_read;
        const uint8_t *s[6];
        size_t n[6];
        for (uint32_t k = 0; k < 6; k++) {
            auto span = qollqamir_section(b.data(), b.size(), 3, k);
            require(span.verdict.number == 0, name);
            s[k] = b.data() + span.start;
            n[k] = span.len;
        }
        Bytes out(b.size());
        auto write = [&](auto call) {
            return [&, call] {
                return call(e, s[0], n[0], s[1], n[1], s[2], n[2], s[3], n[3], s[4], n[4], s[5], n[5], out.data(), out.size());
            };
        };
        require(write(qollqamir_write_psv0)().verdict.number == 0 && write(before_qollqamir_write_psv0)().verdict.number == 0, name);
        add(name, repeat(write(qollqamir_write_psv0)), repeat(write(before_qollqamir_write_psv0)));
    };
    for (auto &entry : std::filesystem::directory_iterator(folder)) {
        Bytes b = load(entry.path());
        if (qollqamir_open(b.data(), b.size(), 3).verdict.number != 0)
            continue;
        all("real shaders, open", "real shaders, PSV0 alone", "real shaders, array of element 0", b);
        lookups("real shaders", b);
        writes("real shaders, write PSV0", b);
        b[24] ^= 1;
        add("size field, open", open_at(b, 3), repeat([&] { return before_qollqamir_open(b.data(), b.size(), 3); }));
        lookups("size field", b);
    }
    Bytes eight = many_parts(0, nullptr, 8);
    add("8 parts, empty, open", open_at(eight, 3), repeat([&] { return before_qollqamir_open(eight.data(), eight.size(), 3); }));
    lookups("8 parts, empty", eight);
    for (size_t data : {0, 64}) {
        Bytes b = many_parts(data);
        std::string files = data ? "96 parts of 64 bytes" : "96 parts, empty";
        add(files + ", open", open_at(b, 3), repeat([&] { return before_qollqamir_open(b.data(), b.size(), 3); }));
        lookups(files, b);
        Parts p = parts_of(b);
        Bytes whole(b.size());
        require(p.into(whole).verdict.number == 0 && whole == b, "96 parts are not assembled again");
        add(files + ", assemble", repeat([&] { return p.into(whole); }), repeat([&] {
                return before_qollqamir_assemble(p.names.data(), p.names.size(), p.sizes.data(), p.sizes.size(), p.data.data(), p.data.size(),
                                                 p.digest.data(), 16, whole.data(), whole.size());
            }));
    }
    all("765 elements, open", "765 elements, PSV0 alone", "765 elements, array of element 0", with_psv0(psv0_of(0, 765, 0, Bytes(16, 0), 1)));
    // As much as may be opened and written: strings whose only zero is near the start.
    Bytes start(16700000, 'a');
    start[15] = 0;
    Bytes b = with_psv0(psv0_of(0, 765, 0, start, 1));
    add("16 MB strings, open", open_at(b, 3), repeat([&] { return before_qollqamir_open(b.data(), b.size(), 3); }));
    writes("16 MB strings, write PSV0", b);
    printf("%-34s %11s %11s %9s %9s\n", "", "now", "before", "/before", "greatest");
    for (auto &p : pairs) {
        printf("%-34s", p.name.c_str());
        cell(median(p.now));
        cell(median(p.before));
        ratio(median(p.ratio));
        ratio(*std::max_element(p.ratio.begin(), p.ratio.end()));
        printf("\n");
    }
}
#endif

int main(int argc, char **argv) {
    require(argc == 2, "the folder of the real shaders is missing");
    std::filesystem::path folder = argv[1];
#ifdef WITH_BEFORE
    beside_before(folder);
    return 0;
#endif
    real_shaders(folder);
    refusals(folder / "sdl_D3D12_VertexShader_YUV.dxbc");
    handing_back(folder / "sdl_D3D12_VertexShader_YUV.dxbc");
    name_check();
    hostile();
    signatures();
    utf8();
    roots();
    settings();
    figures(folder);
    places(folder);
    replacing(folder);
}
