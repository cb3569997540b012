/*
 * A host to start from: it works a sheet in a file, so many raises at a time, and can be ended and run again at any moment.
 *
 *     host [--budget RAISES] [--calls CALLS] [-o FILE] SHEET
 *
 * Each call may make RAISES raises (10,000 unless said), and the sheet is saved after each: to SHEET itself, or to FILE, and then SHEET
 * stays as it is. A worked sheet is again a sheet, so to carry the work on, run the host again on the file that it saved. After CALLS
 * calls, 1 or more, it ends, settled or not. Exit status: 0 where the start is settled, also where it has no complete plan, 2 where it is
 * still open, 1 where the sheet is refused or a file fails.
 *
 * C99 with functions of POSIX and Linux for the file, and C++11. Built against an installed library (install.sh PREFIX):
 *
 *     cc -std=c99 host.c -IPREFIX/include -LPREFIX/lib -lldfs -o host
 */
#define _POSIX_C_SOURCE 200809L

#include <ldfs.h>

#include <errno.h>
#include <fcntl.h>
#include <inttypes.h>
#include <limits.h>
#include <stdio.h>
#include <stdlib.h>
#include <string.h>
#include <sys/stat.h>
#include <sys/xattr.h>
#include <unistd.h>

enum { DONE = 0, FAILED = 1, STILL_OPEN = 2 };

/* How often a link is followed, and a name for a new file tried. */
enum { LINKS_MOST = 40, NUMBERS_MOST = 1000 };

/* What the host lends to every call. One byte more than the longest sheet, so that a longer file is refused and not cut. */
static uint8_t sheet[LDFS_SHEET_MOST + 1];
static uint8_t table[LDFS_TABLE_LEAST];
static uint8_t result[LDFS_RESULT_LEAST];

/* Refusals in words, by their numbers. A later library may know more of them. */
static const char *const refusals[] = {
    "",
    "the table or the result is too short",
    "the sheet has fewer than 17 bytes or more than 60,000",
    "the head is damaged, or names a kind, a number of stages or a start that cannot be",
    "a field is out of place, missing or left over",
    "a cost, a value, a mark or a chosen check is out of its range",
    "a check's findings do not ascend (strictly, on a worst sheet), or lead back, or lead to no stage",
    "a value is above its ending's cost, or above the price of one of its junction's checks",
    "a stage is marked settled and cannot be",
    "the sheet is valid, and the budget is 0",
    "a counted junction writes another number of checks than follow it",
};

/* A number of the sheet, most significant byte first. */
static uint32_t big(const uint8_t *at, int bytes)
{
    uint32_t x = 0;
    for (int i = 0; i < bytes; i++)
        x = x << 8 | at[i];
    return x;
}

/* A number of the table or the result, least significant byte first. */
static uint64_t little(const uint8_t *at, int bytes)
{
    uint64_t x = 0;
    for (int i = bytes; i > 0; i--)
        x = x << 8 | at[i - 1];
    return x;
}

/* Says what failed, and the system's reason. The answer is "no". */
static int failure(const char *name)
{
    fprintf(stderr, "host: %s: %s\n", name, errno != 0 ? strerror(errno) : "failed");
    return 0;
}

static int load(const char *name, size_t *length)
{
    errno = 0;
    FILE *file = fopen(name, "rb");
    if (file == NULL)
        return failure(name);
    *length = fread(sheet, 1, sizeof sheet, file);
    int good = !ferror(file) || failure(name);
    fclose(file);
    return good;
}

/* Says what failed where the system gives no reason. The answer is "no". */
static int complaint(const char *name, const char *why)
{
    fprintf(stderr, "host: %s: %s\n", name, why);
    return 0;
}

/* The name of the file that a name stands for: where it is that of a symbolic link, the name that the link leads to, and so on. The file
   itself need not be there yet. Links of the system under /proc, as of /dev/stdout, stand for open files, which must not be replaced. */
static int follow(const char *name, char *real, size_t room)
{
    char link[PATH_MAX];
    struct stat system, at;
    int known = lstat("/proc/self", &system) == 0;
    if (strlen(name) >= room)
        return complaint(name, "the name is too long");
    strcpy(real, name);
    for (int links = 0; links <= LINKS_MOST; links++) {
        if (lstat(real, &at) != 0)
            return errno == ENOENT || failure(name);
        if (!S_ISLNK(at.st_mode))
            return 1;
        if (known && at.st_dev == system.st_dev)
            return complaint(name, "not a plain file");
        ssize_t length = readlink(real, link, sizeof link - 1);
        if (length < 0)
            return failure(name);
        link[length] = '\0';
        char *slash = strrchr(real, '/');
        char *from = link[0] == '/' || slash == NULL ? real : slash + 1; /* a link leads on from its own folder */
        if ((size_t)(from - real) + (size_t)length >= room)
            return complaint(name, "a link on the way leads to a name that is too long");
        strcpy(from, link);
    }
    return complaint(name, "too many links");
}

/* Opens a new file in the folder of another one, under a name that nothing else has: .host.tmp., the number of the process and one more. */
static int open_beside(const char *name, mode_t mode, char *temporary, size_t room)
{
    const char *slash = strrchr(name, '/');
    int folder = slash == NULL ? 0 : (int)(slash + 1 - name);
    for (int number = 0; number < NUMBERS_MOST; number++) {
        snprintf(temporary, room, "%.*s.host.tmp.%ld-%d", folder, name, (long)getpid(), number);
        int file = open(temporary, O_WRONLY | O_CREAT | O_EXCL | O_CLOEXEC, mode);
        if (file >= 0 || errno != EEXIST)
            return file;
    }
    return -1;
}

/* The new file gets the POSIX access list of the old one, or none where that has none. Without it the mode might let others in. */
static int keep_access_list(int file, const char *old)
{
    static const char attribute[] = "system.posix_acl_access";
    char list[4096];
    ssize_t length = getxattr(old, attribute, list, sizeof list);
    if (length >= 0)
        return fsetxattr(file, attribute, list, (size_t)length, 0) == 0;
    return (errno == ENODATA || errno == ENOTSUP) && (fremovexattr(file, attribute) == 0 || errno == ENODATA || errno == ENOTSUP);
}

/* The new file gets the owner, the group, the access list and the mode of the one whose place it takes. */
static int keep_rights(int file, const char *name, const struct stat *old)
{
    struct stat own;
    if (fstat(file, &own) != 0)
        return 0;
    if ((own.st_uid != old->st_uid || own.st_gid != old->st_gid) && fchown(file, old->st_uid, old->st_gid) != 0)
        return 0;
    return keep_access_list(file, name) && fchmod(file, old->st_mode & 07777) == 0;
}

/* Waits until the disk has the file. */
static int sync_file(int file)
{
    int failed;
    do
        failed = fsync(file);
    while (failed != 0 && errno == EINTR);
    return failed == 0;
}

/* Writes the sheet, to the disk. */
static int write_all(int file, size_t length)
{
    for (size_t done = 0; done < length;) {
        errno = EIO;
        ssize_t more = write(file, sheet + done, length - done);
        if (more == 0 || (more < 0 && errno != EINTR))
            return 0;
        done += more < 0 ? 0 : (size_t)more;
    }
    return sync_file(file);
}

/* A renamed file is sure to have its new name after the machine ends only once its folder is on the disk too. Some folders cannot be
   synced, or not by this process; the file itself is whole either way. */
static int sync_folder(const char *name)
{
    char path[PATH_MAX];
    const char *slash = strrchr(name, '/');
    snprintf(path, sizeof path, "%.*s", slash == NULL ? 1 : (int)(slash + 1 - name), slash == NULL ? "." : name);
    int folder = open(path, O_RDONLY | O_CLOEXEC);
    if (folder < 0)
        return errno == EACCES;
    int good = sync_file(folder) || errno == EINVAL;
    close(folder);
    return good;
}

/* Makes the new file that is to take the place of another one, with its owner, group, access list and mode, and says why it cannot. */
static int make_beside(const char *name, char *temporary, size_t room)
{
    struct stat old;
    int there = stat(name, &old) == 0;
    if (!there && errno != ENOENT) {
        failure(name);
        return -1;
    }
    int file = open_beside(name, there ? 0600 : 0666, temporary, room);
    if (file < 0) {
        fprintf(stderr, "host: %s: no new file can be made beside it: %s\n", name, strerror(errno));
        return -1;
    }
    if (there && !keep_rights(file, name, &old)) {
        complaint(name, "its owner, group, access list and mode cannot be kept");
        close(file);
        unlink(temporary);
        return -1;
    }
    return file;
}

/* Finds the file to save to, before any work: it is a plain one that this process may write, or is not there yet, and a file can be made
   that may take its place. */
static int find(const char *name, char *real, size_t room)
{
    char temporary[PATH_MAX + 64];
    struct stat old;
    if (!follow(name, real, room))
        return 0;
    if (stat(real, &old) == 0) {
        if (!S_ISREG(old.st_mode))
            return complaint(name, "not a plain file");
        int own = open(real, O_WRONLY | O_NONBLOCK | O_NOCTTY | O_CLOEXEC);
        if (own < 0)
            return failure(name);
        close(own);
    }
    int trial = make_beside(real, temporary, sizeof temporary);
    if (trial < 0)
        return 0;
    close(trial);
    return unlink(temporary) == 0 || failure(temporary);
}

/* The sheet goes to a new file beside the old one, which takes its place in one step (rename) once the disk has it: whenever the host or
   the machine ends, the file named holds the sheet of before or this one, and never a part of it. Where the owner, the group, the access
   list or the mode cannot be kept, nothing is saved. Other attributes and other names (hard links) of the old file are not carried over.
   Where the host is ended in between, the new file may be left, .host.tmp. and two numbers: it may be deleted. Two hosts that work on one
   file at once would overwrite each other's work: see that there is one. */
static int save(const char *name, size_t length)
{
    char temporary[PATH_MAX + 64];
    int file = make_beside(name, temporary, sizeof temporary);
    if (file < 0)
        return 0;
    int good = write_all(file, length) || failure(name);
    close(file); /* the disk has it all by now */
    good = good && (rename(temporary, name) == 0 || failure(name));
    if (!good)
        unlink(temporary);
    return good && (sync_folder(name) || failure(name));
}

/* The end of a field, by its own length, which is where the next field begins. */
static const uint8_t *past(const uint8_t *field)
{
    return field + LDFS_FIELD_CONTENT + big(field + LDFS_FIELD_LENGTH, 2);
}

/* A stage's field. The index table, as the last call left it, says where it is. */
static const uint8_t *field_of(uint32_t stage)
{
    return sheet + little(table + LDFS_ENTRY_BYTES * stage, LDFS_ENTRY_BYTES);
}

/* A stage's value, which stands elsewhere in an ending's field than in a junction's. */
static uint32_t value_of(uint32_t stage)
{
    const uint8_t *field = field_of(stage);
    return big(field + (field[0] == LDFS_ENDING_TAG ? LDFS_ENDING_VALUE : LDFS_JUNCTION_VALUE), 4);
}

/* The dearest finding of a check: the lowest-numbered of those whose value is largest. Findings ascend (on a whole sheet equal ones may
   stand side by side), so it is the first of them. */
static uint32_t dearest(const uint8_t *check)
{
    uint32_t by = big(check + LDFS_CHECK_FINDINGS, 2);
    for (const uint8_t *finding = check + LDFS_CHECK_FINDINGS; finding < past(check); finding += 2)
        if (value_of(big(finding, 2)) > value_of(by))
            by = big(finding, 2);
    return by;
}

/* The plan of a settled sheet: the stages that it reaches from the start, ascending, and at each junction the dearest finding. Findings
   lead to stages of higher numbers, so one walk upwards meets each stage after all that lead to it, and once, however often a check of a
   whole sheet lists it. */
static void print_plan(void)
{
    unsigned char reached[LDFS_STAGES_MOST] = {0};
    uint32_t stages = big(sheet + LDFS_HEAD_STAGES, 2), start = big(sheet + LDFS_HEAD_START, 2);
    reached[start] = 1;
    for (uint32_t stage = start; stage < stages; stage++) {
        const uint8_t *field = field_of(stage);
        if (!reached[stage])
            continue;
        if (field[0] == LDFS_ENDING_TAG) {
            printf("stage %" PRIu32 " end value %" PRIu32 "\n", stage, value_of(stage));
            continue;
        }
        const uint8_t *check = past(field); /* a counted junction's field is a byte longer than a plain one's */
        for (int i = 0; i < field[LDFS_JUNCTION_CHOSEN]; i++)
            check = past(check);
        printf("stage %" PRIu32 " check %d value %" PRIu32 " by %" PRIu32 "\n", stage, field[LDFS_JUNCTION_CHOSEN], value_of(stage),
               dearest(check));
        for (const uint8_t *finding = check + LDFS_CHECK_FINDINGS; finding < past(check); finding += 2)
            reached[big(finding, 2)] = 1;
    }
}

/* One call, and how it ended. The number it returned is the answer. */
static uint32_t work(size_t length, uint64_t budget)
{
    uint32_t number = ldfs_solve(sheet, length, table, sizeof table, budget, result, sizeof result);
    uint64_t price = little(result + LDFS_RESULT_PRICE, 8);
    uint64_t passes = little(result + LDFS_RESULT_PASSES, 8), raises = little(result + LDFS_RESULT_RAISES, 8);
    if (number < LDFS_SETTLED)
        printf("refused %" PRIu32 ": %s\n", number,
               number < sizeof refusals / sizeof *refusals ? refusals[number] : "not known to this host");
    else if (number > LDFS_NONE)
        printf("outcome %" PRIu32 ": not known to this host\n", number);
    else if (price == LDFS_NO_PLAN) /* a stopped call may know it too */
        printf("%s: there is no complete plan (passes %" PRIu64 ", raises %" PRIu64 ")\n", number == LDFS_NONE ? "none" : "stopped", passes,
               raises);
    else
        printf("%s %" PRIu64 " cents (passes %" PRIu64 ", raises %" PRIu64 ")\n",
               number == LDFS_SETTLED ? "settled: the least cost is"
               : number == LDFS_OVER  ? "over: every plan costs at least"
                                      : "stopped: every plan costs at least",
               price, passes, raises);
    return number;
}

/* All that was printed has gone out, or the host says why not. */
static int printed(void)
{
    errno = 0;
    return (fflush(stdout) == 0 && !ferror(stdout)) || failure("standard output");
}

static int usage(void)
{
    fprintf(stderr, "usage: host [--budget RAISES] [--calls CALLS] [-o FILE] SHEET\n");
    return FAILED;
}

/* A number of the command line: digits, and no more than 64 bits hold. */
static int number_of(const char *text, uint64_t *number)
{
    char *end = NULL;
    errno = 0;
    *number = strtoull(text, &end, 10);
    return text[0] >= '0' && text[0] <= '9' && *end == '\0' && errno == 0;
}

int main(int count, char **words)
{
    uint64_t budget = 10000, calls = UINT64_MAX;
    const char *from = NULL, *to = NULL;
    for (int i = 1; i < count; i++) {
        int more = i + 1 < count;
        if (strcmp(words[i], "--budget") == 0 && more && number_of(words[i + 1], &budget))
            i++;
        else if (strcmp(words[i], "--calls") == 0 && more && number_of(words[i + 1], &calls) && calls > 0)
            i++;
        else if (strcmp(words[i], "-o") == 0 && more)
            to = words[++i];
        else if (words[i][0] != '-' && from == NULL)
            from = words[i];
        else
            return usage();
    }
    size_t length = 0;
    if (from == NULL)
        return usage();
    if (to == NULL)
        to = from;
    char place[PATH_MAX];
    if (!load(from, &length) || !find(to, place, sizeof place))
        return FAILED;
    uint32_t number = LDFS_STOPPED;
    for (uint64_t i = 0; number == LDFS_STOPPED && i < calls; i++) {
        number = work(length, budget);
        /* A refused sheet is as it was, and nothing is saved; nor is it after an outcome of a later library. */
        int saved = number >= LDFS_SETTLED && number <= LDFS_NONE && save(place, length);
        if (!printed() || !saved)
            return FAILED;
    }
    if (number == LDFS_SETTLED)
        print_plan();
    if (!printed())
        return FAILED;
    return number == LDFS_STOPPED ? STILL_OPEN : DONE;
}
