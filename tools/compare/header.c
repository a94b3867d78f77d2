/* Known answers of the library's calls, by way of include/dumachik.h. Prints `N passed, M failed`; its status is 1 where one fails. */
#include <stdio.h>
#include <string.h>

#include "dumachik.h"

static int passed, failed;

static void check(const char *what, uint64_t found, uint64_t wanted) {
    if (found == wanted) {
        passed++;
        return;
    }
    failed++;
    printf("%s: %u %u, not %u %u\n", what, MFL_REFUSAL(found), MFL_PLACE(found), MFL_REFUSAL(wanted), MFL_PLACE(wanted));
}

static const uint8_t *bytes(const char *text) { return (const uint8_t *)text; }

static uint64_t refusal(uint64_t number, uint64_t place) { return number << 32 | place; }

/* What the calls below are given; `main` changes it for those that are about it. */
static uint32_t ceiling = MFL_CEILING;

static void counts(const char *text, uint64_t wanted) { check(text, mfl_count(bytes(text), strlen(text), ceiling), wanted); }

/* Print into a buffer of `room` bytes with a pattern behind it: `wanted`, then the pattern, or the pattern alone where it refuses. */
static void prints(const char *text, size_t room, uint64_t answer, const char *wanted) {
    uint8_t out[64], held[64];
    memset(out, 0xA5, sizeof out);
    memset(held, 0xA5, sizeof held);
    memcpy(held, wanted, strlen(wanted));
    check(text, mfl_print(bytes(text), strlen(text), out, room, ceiling), answer);
    check(text, memcmp(out, held, sizeof out) != 0, 0);
}

/* The same for Statement and its numbers. */
static void states(const char *text, uint32_t index, size_t room, uint64_t answer, const uint32_t *wanted) {
    uint32_t out[MFL_STATEMENT_ROOM], held[MFL_STATEMENT_ROOM];
    memset(out, 0xA5, sizeof out);
    memset(held, 0xA5, sizeof held);
    if (answer <= UINT32_MAX) memcpy(held, wanted, answer * sizeof *wanted);
    check(text, mfl_statement(bytes(text), strlen(text), index, out, room, ceiling), answer);
    check(text, memcmp(out, held, sizeof out) != 0, 0);
}

/* The same for the numbers of all statements. */
static void states_all(const char *text, size_t room, uint64_t answer, const uint32_t *wanted) {
    uint32_t out[64], held[64];
    memset(out, 0xA5, sizeof out);
    memset(held, 0xA5, sizeof held);
    if (answer <= UINT32_MAX) memcpy(held, wanted, answer * sizeof *wanted);
    check(text, mfl_statements(bytes(text), strlen(text), out, room, ceiling), answer);
    check(text, memcmp(out, held, sizeof out) != 0, 0);
}

/* Profile, under the ceiling at hand. It writes nothing. */
static void profiles(const char *text, uint64_t wanted) { check(text, mfl_profile(bytes(text), strlen(text), ceiling), wanted); }

/* Document 01's K: parameters CL, V, KA; IIV CL, V; template cl=CL, v=V, ka=KA; WT continuous, SEX categorical. */
static const char block[] = "CLVKACLVclCLvVkaKAWTSEXWTSEX";
static const uint32_t lists[] = {3,  2, 3,  2, 2, 1, 1, 0, 2, 2, 1,  3, 2,  5, 2,  7, 1,  8, 2, 10,
                                 2, 12, 1, 13, 1, 14, 2, 16, 2, 18, 2, 0, 20, 3, 1, 23, 2, 25, 3};

/* Resolve with K, and buffers of these lengths with a pattern behind them. */
static void resolves(const char *text, size_t ground_room, size_t effects_room, size_t notes_room, size_t work_length, uint64_t answer,
                     const char *ground, const struct mfl_effect *effects, const struct mfl_note *notes) {
    static uint8_t out[MFL_GROUND_ROOM], held[MFL_GROUND_ROOM];
    static struct mfl_effect effect_out[MFL_EFFECT_ROOM], effect_held[MFL_EFFECT_ROOM];
    static struct mfl_note note_out[MFL_NOTE_ROOM], note_held[MFL_NOTE_ROOM];
    static uint32_t work[MFL_WORKING], work_held[MFL_WORKING];
    memset(out, 0xA5, sizeof out);
    memset(held, 0xA5, sizeof held);
    memset(effect_out, 0xA5, sizeof effect_out);
    memset(effect_held, 0xA5, sizeof effect_held);
    memset(note_out, 0xA5, sizeof note_out);
    memset(note_held, 0xA5, sizeof note_held);
    memset(work, 0xA5, sizeof work);
    memset(work_held, work_length < MFL_WORKING ? 0xA5 : 0, sizeof work_held);
    if (!MFL_REFUSAL(answer)) {
        memcpy(held, ground, strlen(ground));
        memcpy(effect_held, effects, MFL_EFFECTS(answer) * sizeof *effects);
        memcpy(note_held, notes, MFL_NOTES(answer) * sizeof *notes);
    }
    check(text,
          mfl_resolve(bytes(text), strlen(text), bytes(block), sizeof block - 1, lists, sizeof lists / sizeof *lists, out, ground_room,
                      effect_out, effects_room, note_out, notes_room, work, work_length, ceiling),
          answer);
    check(text, memcmp(out, held, sizeof out) != 0, 0);
    check(text, memcmp(effect_out, effect_held, sizeof effect_out) != 0, 0);
    check(text, memcmp(note_out, note_held, sizeof note_out) != 0, 0);
    check(text, memcmp(work, work_held, sizeof work) != 0, 0);
}

/* Ceilings: every count held to them, wherever it stands, and nothing else; those that are none. */
static void ceilings(const uint8_t *blanks) {
    const uint32_t held[] = {0, 3, MFL_CEILING, MFL_CEILING_LIMIT};
    const struct mfl_effect no_effects[1] = {{0, 0, 0, 0, 0}};
    const struct mfl_note no_notes[1] = {{0, 0}};
    for (size_t i = 0; i < sizeof held / sizeof *held; i++) {
        /* the largest count, and one more */
        char least[64], most[64], over[64];
        ceiling = held[i];
        snprintf(least, sizeof least, "PERIPHERALS(0..%u)", ceiling);
        snprintf(most, sizeof most, "TRANSITS([0,%u],DEPOT)", ceiling);
        counts(least, 1);
        counts(most, 1);
        prints(most, sizeof most, strlen(most), most);
        states(least, 0, MFL_STATEMENT_ROOM, 6, (uint32_t[]){2, 0, 3, 0, ceiling, 9});
        states_all(least, 64, 7, (uint32_t[]){6, 2, 0, 3, 0, ceiling, 9});
        resolves(most, strlen(most), 0, 0, MFL_WORKING, strlen(most), most, no_effects, no_notes);
        snprintf(over, sizeof over, "PERIPHERALS(%u)", ceiling + 1);
        counts(over, refusal(4, 12));
        prints(over, sizeof over, refusal(4, 12), "");
        resolves(over, 0, 0, 0, MFL_WORKING, refusal(4, 12), NULL, NULL, NULL);
        snprintf(over, sizeof over, "PERIPHERALS(0..%u)", ceiling + 1);
        counts(over, refusal(4, 15));
        states(over, 0, MFL_STATEMENT_ROOM, refusal(4, 15), NULL);
        snprintf(over, sizeof over, "PERIPHERALS(%u..0)", ceiling + 1);
        counts(over, refusal(4, 12));
        snprintf(over, sizeof over, "TRANSITS([0,%u])", ceiling + 1);
        counts(over, refusal(4, 12));
        states_all(over, 64, refusal(4, 12), NULL);
        /* a range that is refused later, and numbers that are no counts */
        snprintf(over, sizeof over, "LET(A,0..%u)", ceiling + 1);
        counts(over, refusal(4, 9));
        snprintf(over, sizeof over, "LET(A,0..%u)", ceiling);
        counts(over, refusal(9, 6));
        snprintf(over, sizeof over, "LET(A,%u);ALLOMETRY(WT,%u)", ceiling + 1, ceiling + 1);
        counts(over, 2);
        check("16,385 blanks", mfl_count(blanks, MFL_TEXT_LIMIT + 1, ceiling), refusal(1, 0));
    }

    const uint32_t above[] = {MFL_CEILING_LIMIT + 1, 65536 + MFL_CEILING, UINT32_MAX};
    for (size_t i = 0; i < sizeof above / sizeof *above; i++) {
        ceiling = above[i];
        counts("", refusal(21, 0));
        counts("$", refusal(21, 0));
        check("16,385 blanks", mfl_count(blanks, MFL_TEXT_LIMIT + 1, ceiling), refusal(21, 0));
        prints("LAGTIME(ON)", 0, refusal(21, 0), "");
        prints("LAGTIME(ON)", 64, refusal(21, 0), "");
        states("LAGTIME(ON)", 0, MFL_STATEMENT_ROOM, refusal(21, 0), NULL);
        states("LAGTIME(ON)", 1, 0, refusal(21, 0), NULL);
        states_all("LAGTIME(ON)", 64, refusal(21, 0), NULL);
        states_all("LAGTIME(ON)", 0, refusal(21, 0), NULL);
        resolves("LAGTIME(ON)", MFL_GROUND_ROOM, MFL_EFFECT_ROOM, MFL_NOTE_ROOM, MFL_WORKING, refusal(21, 0), NULL, NULL, NULL);
        resolves("$", 0, 0, 0, MFL_WORKING, refusal(21, 0), NULL, NULL, NULL);
        resolves("LAGTIME(ON)", MFL_GROUND_ROOM, MFL_EFFECT_ROOM, MFL_NOTE_ROOM, MFL_WORKING - 1, refusal(19, 0), NULL, NULL, NULL);
    }
    ceiling = MFL_CEILING;
}

/* A form's text with a count in place of its `_`. */
static const char *with_count(const char *form, unsigned count) {
    static char text[64];
    const char *mark = strchr(form, '_');
    snprintf(text, sizeof text, "%.*s%u%s", (int)(mark - form), form, count, mark + 1);
    return text;
}

/* The profile: what it has, each of its faults at its statement's index, and what comes before them. */
static void profile(const uint8_t *blanks) {
    profiles("", 0);
    profiles(";;# nothing", 0);
    profiles("ABSORPTION(*);ELIMINATION([FO,MM]);PERIPHERALS(0..10,DRUG);TRANSITS([1,3,10],*);LAGTIME(ON)", 0);
    profiles("IIV(CL,EXP);IIV(CL,EXP);IOV(*,EXP);IOV(*,EXP);COVARIANCE(IIV,*);COVARIANCE(IIV,*);ALLOMETRY(WT,70);ALLOMETRY(WT,70)", 0);
    profiles("COVARIATE?(CL,WT,lin);COVARIATE?(CL,WT,lin);LET(A,11);LET(A,[12,B]);IIV([11,CL],EXP)", 0);
    profiles("LET(TRANSITS,LAGTIME);LAGTIME(ON)", 0);

    /* each of the four that are outside, alone and behind LETs and others, which count */
    const char *outside[] = {"DIRECTEFFECT(EMAX)", "EFFECTCOMP(*)", "INDIRECTEFFECT(*,PRODUCTION)", "METABOLITE(PSC)"};
    for (size_t i = 0; i < sizeof outside / sizeof *outside; i++) {
        char text[128];
        profiles(outside[i], refusal(22, 0));
        snprintf(text, sizeof text, "LET(A,CL);LAGTIME(ON)\nLET(B,V);;%s;LAGTIME(ON)", outside[i]);
        profiles(text, refusal(22, 3));
    }

    /* each of the five twice, next to each other and apart, LETs counted; a third comes later */
    const char *five[] = {"ABSORPTION(FO)", "ELIMINATION(MM)", "PERIPHERALS(1)", "TRANSITS(N)", "LAGTIME(ON)"};
    for (size_t i = 0; i < sizeof five / sizeof *five; i++) {
        char text[128];
        snprintf(text, sizeof text, "%s;%s", five[i], five[i]);
        profiles(text, refusal(23, 1));
        snprintf(text, sizeof text, "LET(A,CL);%s;LET(B,V);%s;IIV(CL,EXP);%s;%s", five[i], five[(i + 1) % 5], five[i], five[i]);
        profiles(text, refusal(23, 5));
    }
    profiles("TRANSITS(N);TRANSITS(3,DEPOT)", refusal(23, 1));

    /* counts of 10 and 11 in each form */
    const char *forms[] = {
        "PERIPHERALS(_)", "PERIPHERALS(00_,MET)", "PERIPHERALS(0.._)", "PERIPHERALS([_])",       "PERIPHERALS([1,_,0])",
        "TRANSITS(_)",    "TRANSITS(_,DEPOT)",    "TRANSITS(10.._)", "TRANSITS([0,0,_],NODEPOT)", "TRANSITS([_,0])",
    };
    for (size_t i = 0; i < sizeof forms / sizeof *forms; i++) {
        char text[128];
        profiles(with_count(forms[i], 10), 0);
        profiles(with_count(forms[i], 11), refusal(24, 0));
        snprintf(text, sizeof text, "LET(A,CL);IIV(CL,EXP);%s;LAGTIME(ON)", with_count(forms[i], 11));
        profiles(text, refusal(24, 2));
    }
    profiles("PERIPHERALS(11..12)", refusal(24, 0));
    profiles("TRANSITS(n)", 0);

    /* the first statement first, and within one 23 before 24 */
    profiles("TRANSITS(11);METABOLITE(PSC)", refusal(24, 0));
    profiles("METABOLITE(PSC);TRANSITS(11)", refusal(22, 0));
    profiles("LAGTIME(ON);LAGTIME(ON);METABOLITE(PSC);TRANSITS(11)", refusal(23, 1));
    profiles("TRANSITS(1);TRANSITS(11)", refusal(23, 1));
    profiles("METABOLITE(PSC);METABOLITE(PSC)", refusal(22, 0));

    /* what reading refuses, though an earlier statement is against the profile */
    profiles("METABOLITE(PSC);TRANSITS(65)", refusal(4, 25));
    profiles("METABOLITE(PSC);FOO(1)", refusal(6, 16));
    profiles("LAGTIME(ON);LAGTIME(ON);$", refusal(2, 24));
    profiles("METABOLITE?(PSC)", refusal(7, 0));
    check("16,384 blanks", mfl_profile(blanks, MFL_TEXT_LIMIT, ceiling), 0);
    check("16,385 blanks", mfl_profile(blanks, MFL_TEXT_LIMIT + 1, ceiling), refusal(1, 0));

    /* Under a ceiling below 10 a count above it is 4, and the profile has no count to refuse; from 11 on it has. */
    const uint32_t held[] = {3, 10, 11, MFL_CEILING, MFL_CEILING_LIMIT};
    for (size_t i = 0; i < sizeof held / sizeof *held; i++) {
        ceiling = held[i];
        uint32_t fits = ceiling < MFL_PROFILE_COUNT ? ceiling : MFL_PROFILE_COUNT;
        profiles(with_count("PERIPHERALS(_)", fits), 0);
        profiles(with_count("TRANSITS([0,_])", fits), 0);
        profiles(with_count("PERIPHERALS(_)", fits + 1), ceiling > MFL_PROFILE_COUNT ? refusal(24, 0) : refusal(4, 12));
        profiles(with_count("TRANSITS(0.._)", ceiling), ceiling > MFL_PROFILE_COUNT ? refusal(24, 0) : 0);
        profiles(with_count("PERIPHERALS(_)", ceiling + 1), refusal(4, 12));
        profiles(with_count("LAGTIME(ON);LAGTIME(ON);TRANSITS(_)", ceiling + 1), refusal(4, 33));
        profiles("LAGTIME(ON);LAGTIME(ON)", refusal(23, 1));
        profiles("EFFECTCOMP(*)", refusal(22, 0));
    }
    const uint32_t above[] = {MFL_CEILING_LIMIT + 1, 65536 + MFL_CEILING, UINT32_MAX};
    for (size_t i = 0; i < sizeof above / sizeof *above; i++) {
        ceiling = above[i];
        profiles("", refusal(21, 0));
        profiles("EFFECTCOMP(*)", refusal(21, 0));
        profiles("$", refusal(21, 0));
        check("16,385 blanks", mfl_profile(blanks, MFL_TEXT_LIMIT + 1, ceiling), refusal(21, 0));
    }
    ceiling = MFL_CEILING;
}

int main(void) {
    static uint8_t blanks[MFL_TEXT_LIMIT + 1];
    memset(blanks, ' ', sizeof blanks);
    ceilings(blanks);
    profile(blanks);

    check("scan", mfl_scan(bytes("IIV($"), 5), 4);
    check("scan", mfl_scan(bytes("IIV("), 4), 4);

    counts("", 0);
    counts("LAGTIME(ON);;\n ABSORPTION(*) # two", 2);
    check("16,384 blanks", mfl_count(blanks, MFL_TEXT_LIMIT, MFL_CEILING), 0);
    check("16,385 blanks", mfl_count(blanks, MFL_TEXT_LIMIT + 1, MFL_CEILING), refusal(1, 0));
    counts("ABSORPTION?($)", refusal(2, 12));
    counts("FOO(", refusal(3, 4));
    counts("PERIPHERALS(65)", refusal(4, 12));
    counts("PERIPHERALS(2..1)", refusal(5, 12));
    counts("LAGTIME(ON);FOO(1)", refusal(6, 12));
    counts("ABSORPTION?(*)", refusal(7, 0));
    counts("LAGTIME()", refusal(8, 0));
    counts("COVARIATE(CL,WT,*)", refusal(9, 16));
    counts("LAGTIME(MAYBE)", refusal(10, 8));

    prints(" peripherals( 007 ) # x", 23, 14, "PERIPHERALS(7)");
    prints(" peripherals( 007 ) # x", 14, 14, "PERIPHERALS(7)");
    prints(" peripherals( 007 ) # x", 13, refusal(19, 0), "");
    prints("TRANSITS(N,*)", 64, refusal(9, 11), "");
    prints("", 0, 0, "");

    const char *space = "LET(X,[WT]);COVARIATE?([CL,V],@X,[lin,exp],+);PERIPHERALS(0..2)";
    states(space, 0, MFL_STATEMENT_ROOM, 10, (uint32_t[]){14, 0, 8, 4, 1, 12, 1, 0, 7, 2});
    states(space, 1, 16, 16, (uint32_t[]){5, 1, 7, 2, 24, 2, 27, 1, 6, 31, 1, 1, 2, 0, 2, 11});
    states(space, 1, 15, refusal(19, 0), NULL);
    states(space, 2, MFL_STATEMENT_ROOM, 6, (uint32_t[]){2, 0, 3, 0, 2, 9});
    states(space, 3, MFL_STATEMENT_ROOM, refusal(20, 3), NULL);
    states("let(x, [1.5, a])", 0, 13, 13, (uint32_t[]){14, 0, 8, 4, 1, 12, 2, 1, 8, 3, 0, 13, 1});
    states("LAGTIME(MAYBE)", 7, MFL_STATEMENT_ROOM, refusal(10, 8), NULL);

    const uint32_t all[] = {10, 14, 0, 8, 4, 1, 12, 1, 0, 7, 2, 16, 5, 1, 7, 2, 24, 2, 27, 1, 6, 31, 1, 1, 2, 0, 2, 11, 6, 2, 0, 3, 0, 2, 9};
    states_all(space, 64, 35, all);
    states_all(space, 35, 35, all);
    states_all(space, 34, refusal(19, 0), NULL);
    states_all("", 0, 0, all);
    states_all("LAGTIME(ON);LAGTIME(MAYBE)", 64, refusal(10, 20), NULL);

    const char *merged = "COVARIATE(@PK,WT,lin);COVARIATE?(CL,WT,exp);COVARIANCE(IIV,CL)";
    const char *ground = "COVARIATE(V,WT,lin);COVARIATE(KA,WT,lin);COVARIATE?(CL,WT,exp)";
    const struct mfl_effect effects[] = {{1, 0, 0, 0, 0}, {2, 0, 0, 0, 0}, {0, 0, 2, 0, 1}};
    const struct mfl_note notes[] = {{0, 2}};
    uint64_t given = strlen(ground) | (uint64_t)3 << 16 | (uint64_t)1 << 40;
    resolves(merged, MFL_GROUND_ROOM, MFL_EFFECT_ROOM, MFL_NOTE_ROOM, MFL_WORKING, given, ground, effects, notes);
    resolves(merged, strlen(ground), 3, 1, MFL_WORKING, given, ground, effects, notes);
    resolves(merged, strlen(ground) - 1, 3, 1, MFL_WORKING, refusal(19, 0), NULL, NULL, NULL);
    resolves(merged, strlen(ground), 2, 1, MFL_WORKING, refusal(19, 0), NULL, NULL, NULL);
    resolves(merged, strlen(ground), 3, 0, MFL_WORKING, refusal(19, 0), NULL, NULL, NULL);
    resolves("FOO(", 0, 0, 0, MFL_WORKING - 1, refusal(19, 0), NULL, NULL, NULL);
    resolves("FOO(", 0, 0, 0, MFL_WORKING, refusal(3, 4), NULL, NULL, NULL);
    resolves("COVARIATE(CL,WT,lin);COVARIATE(CL,WT,exp)", 0, 0, 0, MFL_WORKING, refusal(17, 1), NULL, NULL, NULL);
    resolves("", 0, 0, 0, MFL_WORKING, 0, "", effects, notes);

    printf("%d passed, %d failed\n", passed, failed);
    return failed != 0;
}
