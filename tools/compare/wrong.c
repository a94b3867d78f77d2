/* The library with one answer in WRONG made wrong, for tools/compare/wrong: the real calls have become real_.. Those whose names begin with
 * `ceiling` are wrong under other ceilings than 64 alone, and those with `profile` are answers of Profile. */
#include <string.h>

#include "dumachik.h"

size_t real_scan(const uint8_t *text, size_t length);
uint64_t real_count(const uint8_t *text, size_t length, uint32_t ceiling);
uint64_t real_print(const uint8_t *text, size_t length, uint8_t *out, size_t room, uint32_t ceiling);
uint64_t real_statement(const uint8_t *text, size_t length, uint32_t index, uint32_t *out, size_t room, uint32_t ceiling);
uint64_t real_profile(const uint8_t *text, size_t length, uint32_t ceiling);

enum {
    none,
    last_byte_of_a_full_text_stray,
    statement_256_refused,
    limit_called_unexpected,
    late_stray_byte_one_too_far,
    byte_past_a_long_canonical_text,
    written_before_19,
    late_label_in_upper_case,
    levels_swapped,
    repeated_name_given_once,
    last_number_of_a_let_called_a_word,
    index_of_20_lost,
    number_written_before_19,
    late_statement_optional,
    ceiling_always_64,
    ceiling_one_more_for_statement,
    ceiling_257_like_256,
    ceiling_too_high_behind_1,
    profile_second_at_the_first,
    profile_transits_passed_over,
    profile_range_by_its_left_end,
    profile_lets_not_counted,
    profile_24_before_23,
};

static uint64_t refusal(uint64_t number, uint64_t place) { return number << 32 | place; }
static int given(uint64_t answer) { return MFL_REFUSAL(answer) == 0; }

/* The ceiling that the real Count and Statement get. */
static uint32_t taken(uint32_t ceiling) {
    if (WRONG == ceiling_always_64 && ceiling <= MFL_CEILING_LIMIT) return MFL_CEILING;
    if (WRONG == ceiling_257_like_256 && ceiling == MFL_CEILING_LIMIT + 1) return MFL_CEILING_LIMIT;
    return ceiling;
}

size_t mfl_scan(const uint8_t *text, size_t length) {
    size_t at = real_scan(text, length);
    return WRONG == last_byte_of_a_full_text_stray && at == MFL_TEXT_LIMIT ? at - 1 : at;
}

uint64_t mfl_count(const uint8_t *text, size_t length, uint32_t ceiling) {
    uint64_t answer = real_count(text, length, taken(ceiling));
    if (WRONG == ceiling_too_high_behind_1 && MFL_REFUSAL(answer) == 21 && length > MFL_TEXT_LIMIT) return refusal(1, 0);
    if (WRONG == statement_256_refused && answer == MFL_STATEMENT_LIMIT) return refusal(11, length);
    if (WRONG == limit_called_unexpected && MFL_REFUSAL(answer) == 11) return refusal(3, MFL_PLACE(answer));
    if (WRONG == late_stray_byte_one_too_far && MFL_REFUSAL(answer) == 2 && MFL_PLACE(answer) > 200) return answer + 1;
    return answer;
}

uint64_t mfl_print(const uint8_t *text, size_t length, uint8_t *out, size_t room, uint32_t ceiling) {
    uint64_t answer = real_print(text, length, out, room, ceiling);
    if (WRONG == byte_past_a_long_canonical_text && given(answer) && answer > 300 && answer < room) out[answer] = ' ';
    if (WRONG == written_before_19 && MFL_REFUSAL(answer) == 19 && room > 0) out[0] = 'X';
    if (WRONG == late_label_in_upper_case && given(answer))
        for (size_t at = 60; at + 6 < answer; at++)
            if (memcmp(out + at, "piece_", 6) == 0) out[at] = 'P';
    return answer;
}

uint64_t mfl_statement(const uint8_t *text, size_t length, uint32_t index, uint32_t *out, size_t room, uint32_t ceiling) {
    int more = WRONG == ceiling_one_more_for_statement && ceiling != MFL_CEILING && ceiling < MFL_CEILING_LIMIT;
    uint64_t answer = real_statement(text, length, index, out, room, taken(ceiling) + more);
    if (WRONG == index_of_20_lost && MFL_REFUSAL(answer) == 20 && index == UINT32_MAX) return refusal(20, 0);
    if (WRONG == number_written_before_19 && MFL_REFUSAL(answer) == 19 && room > 0) out[room - 1] = 0;
    if (!given(answer)) return answer;
    if (WRONG == levels_swapped && out[0] == 13 && out[2] == 1 && out[3] == 2) {
        uint32_t first = out[4];
        out[4] = out[5];
        out[5] = first;
    }
    if (WRONG == repeated_name_given_once && out[2] == 7 && out[3] == 3 && out[5] == out[7] && memcmp(text + out[4], text + out[6], out[5]) == 0)
        out[6] = out[4];
    if (WRONG == last_number_of_a_let_called_a_word && out[0] == 14 && out[6] > 1) out[answer - 3] = 0;
    if (WRONG == late_statement_optional && index > 200) out[1] ^= 1;
    return answer;
}

/* The statement at an index as its numbers: the keyword, the mark of a `?`, and for counts their kind (2 one, 3 a range, 4 a list). */
static const uint32_t *numbers_at(const uint8_t *text, size_t length, uint32_t index, uint32_t ceiling) {
    static uint32_t out[MFL_STATEMENT_ROOM];
    real_statement(text, length, index, out, MFL_STATEMENT_ROOM, ceiling);
    return out;
}

/* How many statements before an index have a keyword, and the first of them. */
static uint32_t before(const uint8_t *text, size_t length, uint32_t index, uint32_t keyword, uint32_t ceiling, uint32_t *first) {
    uint32_t many = 0;
    for (uint32_t at = index; at-- > 0;)
        if (numbers_at(text, length, at, ceiling)[0] == keyword) many++, *first = at;
    return many;
}

uint64_t mfl_profile(const uint8_t *text, size_t length, uint32_t ceiling) {
    uint64_t answer = real_profile(text, length, ceiling);
    uint32_t number = MFL_REFUSAL(answer), place = MFL_PLACE(answer), first = 0;
    if (number < 22) return answer;
    const uint32_t *numbers = numbers_at(text, length, place, ceiling);
    uint32_t keyword = numbers[0], kind = numbers[2], value = numbers[3];
    int counts = keyword == 2 || keyword == 3;
    if (WRONG == profile_second_at_the_first && number == 23 && before(text, length, place, keyword, ceiling, &first)) return refusal(23, first);
    if (WRONG == profile_transits_passed_over && number == 24 && keyword == 3) return 0;
    if (WRONG == profile_range_by_its_left_end && number == 24 && kind == 3 && value <= MFL_PROFILE_COUNT) return 0;
    if (WRONG == profile_lets_not_counted) return refusal(number, place - before(text, length, place, 14, ceiling, &first));
    if (WRONG == profile_24_before_23 && number == 23 && counts && kind == 2 && value > MFL_PROFILE_COUNT) return refusal(24, place);
    return answer;
}
