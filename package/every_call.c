/* Makes every call from C, for tests: every_call prints what each says of nothing at all; every_call IMAGE.. what the calls
   that judge an image say of each, after its name, as the small program vmdk_check does. */
#include <anhkhovet.h>
#include <inttypes.h>
#include <stdio.h>
#include <stdlib.h>
#include <string.h>

static void told(const char *call, uint64_t number, uint64_t place)
{
    printf("%s %" PRIu64 " %" PRIu64 "\n", call, number, place);
}

#define TELL(call, arguments) told(#call, anhkhovet_##call arguments.number, anhkhovet_##call arguments.place)

static void tell_nothing(void)
{
    AnhkhovetPart part = anhkhovet_read(NULL, 0, 0);
    TELL(check, (NULL, 0));
    TELL(check_in, (NULL, 0, NULL, 0));
    TELL(profile, (NULL, 0));
    TELL(header, (NULL, 0));
    TELL(lookup, (NULL, 0, 0));
    TELL(steps, (NULL, 0, 0));
    TELL(chain, (NULL, 0, NULL, 0, 0));
    told("read", part.at, part.length);
    TELL(frame, (NULL, 0, NULL, 0));
    TELL(survey, (NULL, 0, NULL, 0, NULL, 0, NULL, 0));
    TELL(mend, (NULL, 0, ANHKHOVET_SIDE_PRIMARY, NULL, 0));
    TELL(normal, (NULL, 0, NULL, 0));
    TELL(collapse, (NULL, 0, NULL, 0, NULL, 0));
    TELL(to_kdmv, (NULL, 0, NULL, 0));
    TELL(to_cowd, (NULL, 0, NULL, 0));
    TELL(close, (NULL, 0, NULL, 0));
    TELL(descriptor, (NULL, 0, NULL, 0));
    TELL(find, (NULL, 0, 0));
    TELL(split, (NULL, 0, NULL, 0, NULL, 0, 0));
}

/* As many bytes as tests/checks has in a file, and the words that a check in a lent list then needs. */
static uint8_t bytes[1 << 16];
static uint64_t list[ANHKHOVET_MARK_WORDS(sizeof bytes)];

static void tell_image(const char *name, size_t length)
{
    AnhkhovetVerdict verdict = anhkhovet_check(bytes, length);
    AnhkhovetMarked marked = anhkhovet_check_in(bytes, length, list, sizeof list / sizeof list[0]);
    uint64_t row[ANHKHOVET_ROW_WORDS], tally[ANHKHOVET_TALLY_WORDS], lengths[1];
    AnhkhovetSurveyed surveyed;
    lengths[0] = length;
    surveyed = anhkhovet_survey(bytes, length, lengths, 1, row, ANHKHOVET_ROW_WORDS, tally, ANHKHOVET_TALLY_WORDS);
    if (memcmp(&verdict, &marked, sizeof verdict) != 0 || surveyed.number != 0 || row[4] != verdict.number)
        printf("%s: the calls do not agree\n", name);
    else if (verdict.number == ANHKHOVET_ANSWERED)
        printf("%s: accepted %" PRIu64 " %" PRIu64 "\n", name, verdict.capacity, verdict.grain_size);
    else
        printf("%s: refused %" PRIu64 " %" PRIu64 "\n", name, verdict.number, verdict.place);
}

int main(int count, char **names)
{
    int i;
    if (count == 1)
        tell_nothing();
    for (i = 1; i < count; i++) {
        FILE *file = fopen(names[i], "rb");
        if (!file) {
            perror(names[i]);
            return 4;
        }
        tell_image(names[i], fread(bytes, 1, sizeof bytes, file));
        fclose(file);
    }
    return 0;
}
