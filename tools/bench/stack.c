/* Measures how deep each call goes into the stack: a thread fills its stack with a pattern, makes the call and looks for the lowest byte that
 * changed. The most over texts that take every path: each feature, full arrays, full size, each fault. */
#define _GNU_SOURCE
#include <pthread.h>
#include <stdio.h>
#include <stdlib.h>
#include <string.h>

#include "dumachik.h"

#define STACK (1 << 20)
#define PATTERN 0xC3
/* Kept out of the pattern, for the frame of the filling itself. */
#define MARGIN 320

static uint8_t text[MFL_TEXT_LIMIT + 1], out[MFL_TEXT_LIMIT];
static uint32_t numbers[MFL_STATEMENTS_ROOM(MFL_TEXT_LIMIT)];
static size_t length, room;
static uint32_t index_asked;
static uint8_t *stack;
static size_t depth;

static void scan(void) { mfl_scan(text, length); }
static void count(void) { mfl_count(text, length, MFL_CEILING); }
static void print(void) { mfl_print(text, length, out, room, MFL_CEILING); }
static void statement(void) { mfl_statement(text, length, index_asked, numbers, MFL_STATEMENT_ROOM, MFL_CEILING); }

static void statements(void) { mfl_statements(text, length, numbers, room, MFL_CEILING); }
static void profile(void) { mfl_profile(text, length, MFL_CEILING); }

/* Resolve in a context that has the names of the texts: parameters CL, V, KA, MAT, B-1, 1.5; IIV CL, V; template cl=CL, ka=KA; covariates WT, AGE
 * continuous, SEX, B categorical; columns WT. */
static const char block[] = "CLVKAMATB-11.5CLVclCLkaKAWTAGESEXBWT";
static const uint32_t lists[] = {6, 2, 2, 4, 1, 1, 1,  0,  2, 2, 1,  3,  2, 5,  3,  8, 3,  11, 3, 14, 2, 16, 1,
                                 17, 2, 19, 2, 21, 2, 23, 2, 25, 2, 0, 27, 3, 0, 30, 3, 1, 33, 1, 1, 34, 2};
static struct mfl_effect effects[MFL_EFFECT_ROOM];
static struct mfl_note notes[MFL_NOTE_ROOM];
static uint32_t work[MFL_WORKING];
static uint64_t resolved;

static void resolve(void) {
    resolved = mfl_resolve(text, length, (const uint8_t *)block, sizeof block - 1, lists, sizeof lists / sizeof *lists, out, MFL_GROUND_ROOM, effects,
                           MFL_EFFECT_ROOM, notes, MFL_NOTE_ROOM, work, MFL_WORKING, MFL_CEILING);
}

static void *measured(void *call) {
    uint8_t *here = (uint8_t *)__builtin_frame_address(0);
    for (volatile uint8_t *at = stack; at < here - MARGIN; at++) *at = PATTERN;
    ((void (*)(void))call)();
    volatile uint8_t *lowest = stack;
    while (*lowest == PATTERN) lowest++;
    depth = (size_t)(here - lowest);
    return NULL;
}

/* Bytes below the caller's frame, for the text at hand. */
static size_t deep(void (*call)(void)) {
    pthread_attr_t attributes;
    pthread_t thread;
    pthread_attr_init(&attributes);
    if (pthread_attr_setstack(&attributes, stack, STACK) || pthread_create(&thread, &attributes, measured, (void *)call)) {
        perror("thread");
        exit(1);
    }
    pthread_join(thread, NULL);
    return depth;
}

static size_t most[7];

static void more(size_t call, void (*made)(void)) {
    size_t found = deep(made);
    if (found > most[call]) most[call] = found;
}

/* Every call on the text at hand; Print where it must measure first, too. */
static void all(void) {
    more(0, scan);
    more(1, count);
    for (room = 0; room <= length && room <= MFL_TEXT_LIMIT; room = room * 2 + 1) more(2, print);
    room = length <= MFL_TEXT_LIMIT ? length : MFL_TEXT_LIMIT;
    more(2, print);
    for (index_asked = 0; index_asked < 300; index_asked += index_asked < 20 ? 1 : 59) more(3, statement);
    for (room = 0; room <= MFL_STATEMENTS_ROOM(MFL_TEXT_LIMIT); room = room * 2 + 1) more(4, statements);
    room = MFL_STATEMENTS_ROOM(MFL_TEXT_LIMIT);
    more(4, statements);
    more(5, resolve);
    more(6, profile);
}

static void of(const char *words) {
    length = strlen(words);
    memcpy(text, words, length);
    all();
}

static void filled(const char *words, size_t size) {
    size_t n = strlen(words);
    for (length = 0; length < size; length++) text[length] = (uint8_t)words[length % n];
    all();
}

/* `%s` of a statement is an array of 64 entries. */
static void full_arrays(const char *form, const char *entry) {
    static char array[1024], words[4096];
    strcpy(array, "[");
    for (int i = 0; i < 64; i++) strcat(strcat(array, i ? "," : ""), entry);
    strcat(array, "]");
    snprintf(words, sizeof words, form, array, array);
    of(words);
}

int main(void) {
    stack = aligned_alloc(4096, STACK);
    of("");
    of("ABSORPTION([FO,zo,FO,SEQ-ZO-FO]);ELIMINATION(*);PERIPHERALS(0..2,MET);TRANSITS(N);TRANSITS([1,2,03],NODEPOT);LAGTIME([OFF,ON])\n"
       "COVARIATE?([CL,V],@CONTINUOUS,[lin,pow],+);COVARIATE(*,WT,exp,*);ALLOMETRY(WT,70.5);ALLOMETRY(WT);DIRECTEFFECT(EMAX);EFFECTCOMP(*)\n"
       "INDIRECTEFFECT([STEP,EMAX],PRODUCTION);METABOLITE(PSC);IIV?([CL,V],RE_LOG);IOV(@PK,*);COVARIANCE?([IIV,IOV],[CL,V]);LET(A,[B,1.5])");
    full_arrays("LET(A,%s)", "B-1");
    full_arrays("COVARIATE(%s,%s,lin)", "1.5");
    full_arrays("IIV(CL,%s);", "re_log");
    full_arrays("ABSORPTION(%s)", "seq-zo-fo");
    full_arrays("PERIPHERALS(%s,DRUG)", "064");
    full_arrays("INDIRECTEFFECT(%s,%s)", "LOGLIN");
    full_arrays("LET(A,%s,B", "B");
    full_arrays("LET(A,[B,%s])", "B");
    const char *faults[] = {
        "ABSORPTION?($)", "FOO(", "PERIPHERALS(65)", "PERIPHERALS([1,99999999999])", "PERIPHERALS(2..1)", "PERIPHERALS(1..1.5)", "FOO(1)", "ABSORPTION?(*)",
        "LAGTIME()", "COVARIATE(CL,WT,*)", "TRANSITS(N,*)", "IIV([],EXP)", "PERIPHERALS([1,x])", "ALLOMETRY(70)", "LET(A,*)", "LAGTIME(MAYBE)", "IIV(@3,EXP)",
        "LAGTIME([1..2])", "LET?(A,B)", "COVARIATE(CL,WT,lin,x)", "A B", "(", "LAGTIME(ON) LAGTIME(ON)",
    };
    for (size_t i = 0; i < sizeof faults / sizeof *faults; i++) of(faults[i]);
    filled("IIV?([CL,V],EXP);LAGTIME(ON)\n", 128 * 29);
    filled("IIV?([CL,V],EXP);LAGTIME(ON)\n", 129 * 29);
    filled("COVARIATE?([CL,V,KA,MAT], [WT,AGE,SEX], [pow,lin,exp])  # a note on parameters and covariates, longer\nPERIPHERALS([0,1,2,3],DRUG)\n", MFL_TEXT_LIMIT);
    filled(" \n;", MFL_TEXT_LIMIT);
    filled(" ", MFL_TEXT_LIMIT + 1);

    /* what is resolved: symbols, LETs, `*`, groups, what is dropped, what is forced twice */
    of("LET(X,[WT,AGE]);COVARIATE?(@PK,@X,[lin,exp]);COVARIATE?(*,*,*);COVARIATE(CL,SEX,cat,+);IIV(*,*);IOV?(@IIV,EXP);COVARIANCE(*,@PK_IIV);ALLOMETRY(WT)");
    if (MFL_REFUSAL(resolved)) return printf("not resolved: %u\n", MFL_REFUSAL(resolved)), 1;
    of("COVARIATE(CL,WT,lin);COVARIATE(CL,WT,exp)");
    of("COVARIATE(@PD,WT,lin);IIV(@ABSORPTION,*);COVARIATE?([CL,V],[WT,AGE],*,+)");
    filled("COVARIATE?(@PK,@CONTINUOUS,*);", 80 * 30);

    const char *names[] = {"mfl_scan", "mfl_count", "mfl_print", "mfl_statement", "mfl_statements", "mfl_resolve", "mfl_profile"};
    for (int call = 0; call < 7; call++) printf("| `%s` | %zu |\n", names[call], most[call]);
    return 0;
}
