// examples/count.c in C++17: the same calls, the same output.
// Build: c++ -std=c++17 -Iinclude examples/count.cpp target/staticlib/libcapi.a -o count
#include <array>
#include <cstddef>
#include <cstdint>
#include <cstdio>
#include <iostream>
#include <string>
#include <string_view>
#include <utility>
#include <vector>

#include "flasknib.h"

using Source = std::array<std::uint64_t, FLASKNIB_SOURCE_WORDS>; // fresh if it is all zero
using Bytes = std::vector<std::uint8_t>;

constexpr std::string_view label = "probe 2, left";
constexpr std::uint32_t media = 1, sender = 9;

struct Totals {
    Source source{};
    std::uint64_t jumped = 0, restarts = 0;
};

// Thrown if a call is refused.
struct Refused {
    int number;
};

static void print_words(std::string_view name, const Bytes &bytes)
{
    std::cout << name << ':';
    for (std::size_t i = 0; i < bytes.size(); i++) {
        char two[3];
        std::snprintf(two, sizeof two, "%02X", static_cast<unsigned>(bytes[i]));
        std::cout << (i % 4 == 0 ? " " : "") << two;
    }
    std::cout << '\n';
}

static void print_text(const Bytes &bytes)
{
    std::cout << std::string(bytes.begin(), bytes.end());
}

// How much room a writer needs: asked with a room of 0, and a pointer that is not null even so, it refuses with 12 and says the size.
template <typename Writer> static std::size_t size_of(Writer write)
{
    std::uint8_t none = 0;
    const std::int64_t asked = write(&none, std::size_t{0});
    if (flasknib_writer_refusal(asked) != FLASKNIB_REFUSAL_ROOM)
        throw Refused{flasknib_writer_refusal(asked)};
    return flasknib_writer_size(asked);
}

// What a writer writes in just that much room.
template <typename Writer> static Bytes written(Writer write)
{
    Bytes out(size_of(write));
    const std::int64_t answer = write(out.data(), out.size());
    if (answer < 0)
        throw Refused{flasknib_writer_refusal(answer)};
    return out;
}

// The writer of a row.
static auto row(const Totals &totals)
{
    return [&totals](std::uint8_t *out, std::size_t room) {
        flasknib_row row{};
        row.label = reinterpret_cast<const std::uint8_t *>(label.data());
        row.length = label.size();
        row.ssrc = media;
        row.source = totals.source.data();
        row.jumped = totals.jumped;
        row.restarts = totals.restarts;
        return flasknib_write_row_with(row, out, room);
    };
}

// Counts the arrivals one by one. A jump is left out.
static void count(Totals &totals)
{
    constexpr std::pair<std::uint16_t, std::uint8_t> arrivals[] = {
        {65534, FLASKNIB_MARK_ECT0}, {65535, FLASKNIB_MARK_ECT0}, {0, FLASKNIB_MARK_CE}, {0, FLASKNIB_MARK_CE}, {3, FLASKNIB_MARK_ECT1}};

    for (const auto &[wire, mark] : arrivals) {
        const std::uint8_t answer = flasknib_arrive(totals.source.data(), totals.source.size(), wire, mark);
        totals.jumped += answer == FLASKNIB_REFUSAL_JUMP;
        totals.restarts += answer == FLASKNIB_RESTARTED;
        if (answer != 0 && answer != FLASKNIB_REFUSAL_JUMP && answer != FLASKNIB_RESTARTED)
            throw Refused{answer};
    }
}

// Counts the records of a block.
static void count_block(Totals &totals, const std::uint8_t *records, std::size_t length, std::size_t width)
{
    const std::int64_t answer = flasknib_count_block(totals.source.data(), totals.source.size(), records, length, width);
    if (answer < 0)
        throw Refused{flasknib_writer_refusal(answer)};
    totals.jumped += flasknib_block_jumps(answer);
    totals.restarts += flasknib_block_restarts(answer);
}

static void print_reports(const Source &source)
{
    std::cout << "highest " << static_cast<std::int64_t>(source[FLASKNIB_SOURCE_HIGHEST]) << "\nECT(0) " << source[FLASKNIB_SOURCE_ECT0]
              << "\nECT(1) " << source[FLASKNIB_SOURCE_ECT1] << "\nCE " << source[FLASKNIB_SOURCE_CE] << "\nnot-ECT "
              << source[FLASKNIB_SOURCE_NOT_ECT] << "\nduplicates " << source[FLASKNIB_SOURCE_DUPLICATES] << '\n';
    print_words("feedback", written([&](std::uint8_t *out, std::size_t room) {
                    return flasknib_write_feedback(source.data(), source.size(), sender, media, out, room);
                }));
    print_words("summary", written([&](std::uint8_t *out, std::size_t room) {
                    return flasknib_write_summary(source.data(), source.size(), media, out, room);
                }));
}

int main()
try {
    // 30000, 30001, 30002 after a reboot, in records of 4 bytes, big-endian
    constexpr std::uint8_t rebooted[] = {0x75, 0x30, 2, 0, 0x75, 0x31, 2, 0, 0x75, 0x32, 3, 0};
    Totals totals;

    count(totals);
    print_reports(totals.source);
    std::cout << "row in 0 bytes: refused " << FLASKNIB_REFUSAL_ROOM << ", " << size_of(row(totals)) << " bytes\n";
    print_text(written(flasknib_write_head));
    print_text(written(row(totals)));

    count_block(totals, rebooted, sizeof rebooted, 4);
    print_text(written(row(totals)));
    return 0;
} catch (const Refused &refused) {
    std::cerr << "refused " << refused.number << '\n';
    return 1;
}
