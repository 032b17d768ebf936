/* Managers in several threads: two threads have one each, with commits of their own at the same time; then two threads have
 * one by turns, under a lock; and one thread makes a manager that another frees behind its end. Every memory is compared with
 * the old and the new rules by plain loops. It prints the first thing that is wrong, and fails. */
#define _POSIX_C_SOURCE 200809L
#include "lists.h"
#include "registers.h"
#include "tries.h"

#include <pthread.h>
#include <string.h>

#define COMMITS 60

/* A manager with its memory and its rules. */
struct driver {
    struct tcam_manager manager;
    struct registers registers;
    struct list rules;
    struct draws draws;
    unsigned commits;
    pthread_mutex_t lock;
};

static void compare(struct driver *driver, const struct list *old, const struct list *new) {
    for (int i = 0; i < 10; i++) {
        struct tcam_key key = key_at_random(&driver->draws);
        struct tcam_answer answer;
        int64_t was = list_answer(old, &key), is = list_answer(new, &key);
        int64_t got = registers_answer(&driver->registers, &key);
        CHECK(got == was || got == is);
        CHECK(tcam_answer(&driver->manager, &key, &answer) == TCAM_OK);
        got = answer.found ? (int64_t)answer.result : -1;
        CHECK(got == was || got == is);
    }
}

/* A rule at random comes, or goes where it is there. */
static void change(struct driver *driver, struct list *list) {
    uint32_t at = below(&driver->draws, NUMBERS);
    list->there[at] = !list->there[at];
    if (list->there[at]) {
        list->rules[at] = rule_at_random(&driver->draws, 1 + at, 1000);
        CHECK(tcam_add_rule(&driver->manager, &list->rules[at]) == TCAM_OK);
    } else {
        CHECK(tcam_del_rule(&driver->manager, 1 + at) == TCAM_OK);
    }
}

static void commit(struct driver *driver) {
    struct list new = driver->rules;
    struct tcam_numbers numbers;
    struct tcam_refusal refusal;
    struct tcam_write write;
    change(driver, &new);
    enum tcam_error error = tcam_prepare(&driver->manager, &numbers, &refusal);
    if (error != TCAM_OK) {
        CHECK((error == TCAM_SLOTS || error == TCAM_BITS) && tcam_clear(&driver->manager) == TCAM_OK);
        return;
    }
    while (tcam_next(&driver->manager, &write) == TCAM_OK && write.kind != TCAM_NOTHING) {
        if (write.kind == TCAM_DRAIN)
            CHECK(tcam_drained(&driver->manager) == TCAM_OK);
        else if (registers_put(&driver->registers, &write))
            CHECK(tcam_made(&driver->manager) == TCAM_OK);
        compare(driver, &driver->rules, &new);
    }
    driver->rules = new;
    driver->commits++;
}

static struct driver *driver_of(uint32_t seed, enum tcam_mode mode) {
    struct driver *driver = calloc(1, sizeof *driver);
    CHECK(driver && pthread_mutex_init(&driver->lock, NULL) == 0);
    driver->draws.seed = seed;
    CHECK(tcam_new(&driver->manager, SLOTS, mode, TCAM_RANK) == TCAM_OK);
    return driver;
}

static void free_driver(struct driver *driver) {
    CHECK(tcam_free(&driver->manager) == TCAM_OK && pthread_mutex_destroy(&driver->lock) == 0);
    free(driver);
}

/* A thread with a manager that nobody else has. */
static void *alone(void *driver) {
    for (int i = 0; i < COMMITS; i++) commit(driver);
    return NULL;
}

/* A thread with a manager that another has too: each has it for a whole commit. */
static void *by_turns(void *shared) {
    struct driver *driver = shared;
    for (int i = 0; i < COMMITS; i++) {
        CHECK(pthread_mutex_lock(&driver->lock) == 0);
        commit(driver);
        CHECK(pthread_mutex_unlock(&driver->lock) == 0);
    }
    return NULL;
}

/* A thread that makes a manager, and leaves it to who waits for its end. */
static void *makes(void *seed) {
    struct driver *driver = driver_of(*(uint32_t *)seed, TCAM_COVER);
    commit(driver);
    return driver;
}

static void run_two(void *(*thread)(void *), void *one, void *other, void *left[2]) {
    pthread_t threads[2];
    CHECK(pthread_create(&threads[0], NULL, thread, one) == 0 && pthread_create(&threads[1], NULL, thread, other) == 0);
    CHECK(pthread_join(threads[0], &left[0]) == 0 && pthread_join(threads[1], &left[1]) == 0);
}

int main(void) {
    void *left[2];
    uint32_t seeds[2] = {7, 8};
    struct driver *one = driver_of(1, TCAM_BY_BITS), *other = driver_of(2, TCAM_COVER), *shared = driver_of(3, TCAM_BY_BITS);
    run_two(alone, one, other, left);
    run_two(by_turns, shared, shared, left);
    printf("commits of two threads: %u and %u at once, %u by turns\n", one->commits, other->commits, shared->commits);
    run_two(makes, &seeds[0], &seeds[1], left);
    for (int i = 0; i < 2; i++) {
        commit(left[i]);
        free_driver(left[i]);
    }
    free_driver(one);
    free_driver(other);
    free_driver(shared);
    return 0;
}
