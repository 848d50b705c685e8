// SeqAn's matchRefinement behind plain C functions, on scripts that are known to be admitted.

#include <cstddef>
#include <cstdint>

#include <seqan/graph_align.h>

namespace {

using Match = seqan::Fragment<uint32_t, seqan::ExactReversableFragment<>>;
using Matches = seqan::String<Match>;
using Sequences = seqan::StringSet<seqan::CharString>;
using Lent = seqan::StringSet<seqan::CharString, seqan::Dependent<>>;
using Refinement = seqan::Graph<seqan::Alignment<Lent, uint32_t>>;

struct Edge {
    size_t left_a, left_b, length_on_a, length_on_b;
};

constexpr size_t LONGEST_SEQUENCE = 1000000000;
constexpr size_t BYTES_OF_LENGTHS = 9;
constexpr size_t BYTES_OF_A_MATCH = 13;

uint32_t number_at(const uint8_t *bytes) {
    return bytes[0] | bytes[1] << 8 | bytes[2] << 16 | static_cast<uint32_t>(bytes[3]) << 24;
}

// Sequences as long as the script says. Without a score none of their letters is read, so none is ever set; the room is
// reserved once and costs neither time nor memory.
Sequences &sequences_of(const uint8_t *script) {
    static Sequences sequences;
    resize(sequences, 2);
    for (size_t side = 0; side < 2; ++side) {
        reserve(sequences[side], LONGEST_SEQUENCE, seqan::Exact());
        resize(sequences[side], number_at(script + 1 + 4 * side));
    }
    return sequences;
}

Matches matches_of(const uint8_t *script, size_t script_len) {
    Matches matches;
    reserve(matches, script_len / BYTES_OF_A_MATCH);
    for (size_t at = BYTES_OF_LENGTHS; at + BYTES_OF_A_MATCH <= script_len; at += BYTES_OF_A_MATCH) {
        const uint8_t *operands = script + at + 1;
        appendValue(matches, Match(0, number_at(operands), 1, number_at(operands + 4), number_at(operands + 8),
                                   script[at] == 'R'));
    }
    return matches;
}

Refinement refined(const uint8_t *script, size_t script_len) {
    Sequences &sequences = sequences_of(script);
    Matches matches = matches_of(script, script_len);
    Refinement refinement(sequences);
    matchRefinement(matches, sequences, refinement);
    return refinement;
}

}  // namespace

// Returns the count of edges: one joins the stretch on A and the stretch on B of each piece, once for equal ones.
extern "C" size_t seqan_refine(const uint8_t *script, size_t script_len) {
    return numEdges(refined(script, script_len));
}

// Writes the edges as far as there is room for them, and returns their count.
extern "C" size_t seqan_edges(const uint8_t *script, size_t script_len, Edge *edges, size_t edges_len) {
    Refinement refinement = refined(script, script_len);
    size_t count = 0;
    for (seqan::Iterator<Refinement, seqan::EdgeIterator>::Type it(refinement); !atEnd(it); goNext(it), ++count) {
        auto a = sourceVertex(it), b = targetVertex(it);
        if (sequenceId(refinement, a) != 0)
            std::swap(a, b);
        if (count < edges_len)
            edges[count] = {fragmentBegin(refinement, a), fragmentBegin(refinement, b),
                            fragmentLength(refinement, a), fragmentLength(refinement, b)};
    }
    return count;
}
