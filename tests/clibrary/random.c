/* The library against the second library, call by call: random and hostile arguments, on separate copies of every buffer. Return value,
 * answer and everything lent must be equal, and what the header promises of every refusal must hold. Each buffer stands against an
 * inaccessible page, by its end and by its beginning in turn. A seed is one host: a machine, a job, an image and an array, over CALLS calls.
 *
 *     random FIRST SEEDS          the last line is 'N passed, M failed': one for 100 calls, one for each count
 *     random seed S               one seed, every call printed
 *     random faults SEEDS         built with -DFAULTS: each fault of faults.c in turn, which must be found in so many seeds */
#include "trial.h"
#include "searches.h"
#include "unfit.h"
#include "explains.h"
#include "host.h"
#ifdef FAULTS
#include <sys/wait.h>
#endif

/* ---- hosts, and the counts */

static void play(unsigned long s)
{
    static void (*const all[])(void) = {load, pulse, pulse, explain, explain, resolve, show, answer, answer, whole_round, start, step, step,
                                        total, write_image, read_image, operate, operate};
    seed = s;
    call = 0;
    state = (s + 1) * 0x9E3779B97F4A7C15u;
    for (int i = 0; i < 8; i++) {
        any();
    }
    new_host();
    while (call < CALLS) {
        (host.held && once_in(3) ? step : all[below(sizeof all / sizeof *all)])();
    }
}

/* Whether something came up often enough. */
static unsigned long enough(unsigned long count, unsigned long least, unsigned long *failed)
{
    printf(" %lu%s", count, count >= least ? "," : " (too few),");
    *failed += count < least;
    return count >= least;
}

/* Counts by their names, on one line; how many of them are great enough. */
static unsigned long report_named(const char *const *names, const unsigned long *named, int n, unsigned long least, unsigned long *failed)
{
    unsigned long passed = 0;
    for (int i = 0; i < n; i++) {
        printf("%s:", names[i]);
        passed += enough(named[i], least, failed);
        printf(i + 1 < n ? " " : "\n");
    }
    return passed;
}

/* Explanations, and each reason by the codes that it can be given with. */
static unsigned long report_explained(unsigned long *failed)
{
    unsigned long passed = report_named(explained_as, explained, EXPLAINED, LEAST_EXPLAINED, failed);
    printf("matched by   ");
    passed += report_named(asked_as, matched_by, ASKED, LEAST_EXPLAINED, failed);
    printf("not selected ");
    passed += report_named(asked_as, not_selected_by, ASKED, LEAST_EXPLAINED, failed);
    printf("against by   ");
    passed += report_named(asked_as, against_by, ASKED, LEAST_EXPLAINED, failed);
    printf("equal by     ");
    return passed + report_named(asked_as + LARGER_AND_SMALLER, equal_by + LARGER_AND_SMALLER, 2, LEAST_EXPLAINED, failed);
}

static unsigned long report(unsigned long *failed)
{
    unsigned long passed = 0, calls = 0;
    for (int i = 0; i < functions; i++) {
        printf("%-12s", told[i].name);
        for (int r = 0; r < NUMBERS; r++) {
            calls += counts[i][r];
            if ((told[i].numbers >> r & 1) == 1) {
                printf(" %d:", r);
                passed += enough(counts[i][r], LEAST, failed);
            }
        }
        printf("\n");
    }
    passed += report_named(ends, ended, ENDS, LEAST, failed);
    passed += report_named(searched_as, searched, SEARCHED, LEAST, failed);
    passed += report_explained(failed);
    for (size_t k = 0; k < sizeof judging / sizeof *judging; k++) {
        printf("%-12s ", told[judging[k]].name);
        passed += report_named(named_as, named[judging[k]], NAMED, LEAST, failed);
    }
    printf("%lu calls\n", calls);
    return passed + calls / 100;
}

#ifdef FAULTS
/* Each fault in a process of its own, which must end by finding it; none, without a fault. */
static int find_faults(unsigned long seeds)
{
    int found = 0;
    for (int k = 0; k <= faults; k++) {
        int status = 0;
        pid_t child = fork();
        if (child == 0) {
            fault = k;
            printf("fault %d: ", k);
            fflush(stdout);
            for (unsigned long s = 0; s < seeds; s++) {
                play(s);
            }
            printf("not found in %lu seeds\n", seeds);
            exit(0);
        }
        if (child < 0 || waitpid(child, &status, 0) != child) {
            return 2;
        }
        found += WIFEXITED(status) && WEXITSTATUS(status) == (k > 0 ? FOUND : 0);
    }
    printf("%d passed, %d failed\n", found, faults + 1 - found);
    return found != faults + 1;
}
#endif

const char *__asan_default_options(void) { return "handle_segv=0:handle_sigbus=0"; }

int main(int count, char **words)
{
    static const char *const names[] = {
#define NAME(name) #name,
        FUNCTIONS(NAME)};
    unsigned long first = 0, seeds = 1, failed = 0;
    for (int i = 0; i < functions; i++) {
        if (strcmp(names[i], told[i].name) != 0) {
            fprintf(stderr, "pairs.h has %s where %s is called\n", told[i].name, names[i]);
            return 2;
        }
    }
    setvbuf(stdout, NULL, _IOLBF, 0);
    signal(SIGSEGV, outside);
    signal(SIGBUS, outside);
    map_regions();
    if (count == 3 && strcmp(words[1], "seed") == 0) {
        loud = true;
        play(strtoul(words[2], NULL, 10));
        return 0;
    }
#ifdef FAULTS
    return find_faults(strtoul(words[count - 1], NULL, 10));
#endif
    if (count == 3) {
        first = strtoul(words[1], NULL, 10);
        seeds = strtoul(words[2], NULL, 10);
    }
    for (unsigned long s = first; s < first + seeds; s++) {
        play(s);
    }
    unsigned long passed = report(&failed);
    printf("%lu passed, %lu failed\n", passed, failed);
    return failed != 0;
}
