// A shot file with one trace, written into memory of just its size, checked and read again. In the bundle's folder, on Linux:
// g++ -std=c++11 -Iinclude examples/shot.cpp lib/linux-x86_64/libseg2.a -o shot && ./shot
#include <cstdio>
#include <cstdlib>
#include <string>
#include <vector>

#include "seg2.h"

namespace {

// The length, or the words for the crew and the end.
size_t told(const seg2_length &answer) {
    if (answer.number != SEG2_ACCEPTED) {
        std::printf("refused (%u): %s\n", static_cast<unsigned>(answer.number), seg2_text(answer.number));
        std::exit(1);
    }
    return answer.length;
}

} // namespace

int main() {
    const std::string sheet = "RECEIVER_LOCATION\t12.5\n";
    const std::vector<int32_t> samples{1, -1, 256};
    // the room of each step is asked beforehand
    std::vector<uint8_t> file(told(seg2_start_size_of(SEG2_LOW_FIRST, 24, SEG2_LITERAL("UNITS\tMETERS\n"))));
    const size_t started = told(seg2_start_of(file.data(), file.size(), SEG2_LOW_FIRST, 24, SEG2_LITERAL("UNITS\tMETERS\n")));
    file.resize(told(seg2_add_size_of(file.data(), file.size(), started, sheet.data(), sheet.size(), SEG2_FIXED_32, samples.size())));
    told(seg2_add_integers_of(file.data(), file.size(), started, sheet.data(), sheet.size(), SEG2_FIXED_32, samples.data(), samples.size()));

    const seg2_verdict check = seg2_check(file.data(), file.size(), file.size());
    std::printf("%s, %zu bytes\n", seg2_text(check.number), file.size());
    const struct seg2_value value = seg2_value_of(file.data(), file.size(), file.size(), -1, SEG2_LITERAL("UNITS"));
    std::printf("UNITS %s\n", std::string(seg2_chars(file.data(), value.value_start), value.value_length).c_str());
    const struct seg2_location at = seg2_quick_location_of(file.data(), file.size(), file.size(), 0, SEG2_LITERAL("RECEIVER_LOCATION"));
    const seg2_trace trace = seg2_quick_trace_block_of(file.data(), file.size(), file.size(), 0);
    std::vector<int32_t> row(trace.sample_count);
    const seg2_verdict read = seg2_quick_integers(file.data(), file.size(), file.size(), 0, row.data(), row.size());
    std::printf("trace 0 at %g:", at.x);
    for (const int32_t sample : row) {
        std::printf(" %d", static_cast<int>(sample));
    }
    std::printf("\n");
    return check.number != 0 || value.number != 0 || at.number != 0 || read.number != 0;
}
