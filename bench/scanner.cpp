// The yardstick of scripts/bench: the same reading of LRAT text with the same checks, in one pass, in plain C++.
#include <chrono>
#include <cstdint>
#include <cstdio>
#include <cstdlib>
#include <vector>

namespace {

using Bytes = const unsigned char *;
enum class Token { Number, LetterD, LineEnd, Misshapen };

bool blank(unsigned char c) { return c == ' ' || c == '\t'; }

bool at_end(Bytes p, Bytes end) { return p >= end || blank(*p) || *p == '\n'; }

Token scan(Bytes &p, Bytes end, int32_t &value) {
    while (p < end && blank(*p)) ++p;
    if (p >= end) return Token::LineEnd;
    if (*p == '\n') { ++p; return Token::LineEnd; }
    bool negative = false;
    if (*p == '-') { negative = true; ++p; }
    else if (*p == 'd') { ++p; return at_end(p, end) ? Token::LetterD : Token::Misshapen; }
    if (p >= end) return Token::Misshapen;
    if (*p == '0') { ++p; value = 0; return negative || !at_end(p, end) ? Token::Misshapen : Token::Number; }
    if (*p < '1' || *p > '9') return Token::Misshapen;
    uint64_t n = *p++ - '0';
    while (p < end && *p >= '0' && *p <= '9' && n <= 2147483647ull) n = n * 10 + (*p++ - '0');
    if (n > 2147483647ull || !at_end(p, end)) return Token::Misshapen;
    value = negative ? -static_cast<int32_t>(n) : static_cast<int32_t>(n);
    return Token::Number;
}

struct Head { bool deletion; uint32_t number; size_t literals, hints; };

struct Source {
    Bytes p, end;

    // 0 for an item, else the ending's number
    int next(int32_t *literals, uint32_t *hints, Head &head) {
        Bytes q = p;
        int32_t v;
        Token t;
        do { if (q >= end) return 20; t = scan(q, end, v); } while (t == Token::LineEnd);
        if (t != Token::Number || v < 0) return 21;
        const uint32_t number = v;
        t = scan(q, end, v);
        const bool deletion = t == Token::LetterD;
        size_t l = 0, h = 0;
        if (!deletion) {
            if (t != Token::Number || number == 0) return 21;
            while (v != 0) {
                if (l == 64) return 25;
                literals[l++] = v;
                if (scan(q, end, v) != Token::Number) return 21;
            }
        }
        for (;;) {
            if (scan(q, end, v) != Token::Number || v < 0) return 21;
            if (v == 0) break;
            if (h == 256) return 25;
            hints[h++] = v;
        }
        if (scan(q, end, v) != Token::LineEnd) return 21;
        head = {deletion, number, l, h};
        p = q;
        return 0;
    }
};

} // namespace

int main(int argc, char **argv) {
    if (argc != 2) return 2;
    FILE *file = std::fopen(argv[1], "rb");
    if (!file) return 1;
    std::vector<unsigned char> data;
    std::fseek(file, 0, SEEK_END);
    data.resize(std::ftell(file));
    std::rewind(file);
    if (std::fread(data.data(), 1, data.size(), file) != data.size()) return 1;
    for (int round = 0; round < 3; ++round) {
        const auto start = std::chrono::steady_clock::now();
        Source source{data.data(), data.data() + data.size()};
        int32_t literals[64] = {0};
        uint32_t hints[256] = {0};
        Head head;
        uint64_t sum = 0;
        while (source.next(literals, hints, head) == 0)
            sum += head.deletion ? head.hints : uint64_t(head.number) + head.literals + head.hints + uint32_t(std::abs(literals[0])) + hints[0];
        const auto took = std::chrono::duration_cast<std::chrono::microseconds>(std::chrono::steady_clock::now() - start).count();
        std::printf("plain C++: %zu bytes in %lld us (sum %llu)\n", data.size(), (long long)took, (unsigned long long)sum);
    }
}
