// Nanoseconds to read a date text, to shift an instant and to write its text: ours beside glibc.
//
//     calendar [ROUNDS]
//
// Each number is the least of all rounds; a round goes through all acts, ours and glibc's in turn. Both must give the
// same instants and texts. glibc's part reads by strptime and timegm, the fraction and the offset by hand; shifts by
// gmtime_r, a field changed, and timegm; and writes by gmtime_r and strftime, the milliseconds by hand.
#include "measure.h"

#include <cinttypes>
#include <cstdio>
#include <cstdlib>
#include <cstring>
#include <ctime>
#include <string>
#include <vector>

extern "C" {
uint32_t calendar_read_date(const uint8_t *text, size_t text_len, int64_t *ms);
uint32_t calendar_shift(int64_t from, int64_t amount, uint32_t unit, int64_t *ms);
uint32_t calendar_text(int64_t ms, uint8_t *text, size_t text_len);
}

namespace {

enum Unit : uint32_t { YEAR, MONTH, DAY, HOUR };

// ---- ours

bool read_ours(const std::string &text, int64_t *ms)
{
    return calendar_read_date(reinterpret_cast<const uint8_t *>(text.data()), text.size(), ms) == 0;
}

// ---- glibc's

// The milliseconds of a fraction, if there is one; the place moves past it.
int fraction(const char **at)
{
    if (**at != '.')
        return 0;
    int ms = 0, digits = 0;
    for (++*at; **at >= '0' && **at <= '9'; ++*at)
        if (digits++ < 3)
            ms = ms * 10 + (**at - '0');
    for (; digits < 3; digits++)
        ms *= 10;
    return ms;
}

// The milliseconds of Z, of nothing, or of an offset as +05:30, which is all that the texts here have.
int offset(const char *at)
{
    if (*at != '+' && *at != '-')
        return 0;
    int minutes = ((at[1] - '0') * 10 + at[2] - '0') * 60 + (at[4] - '0') * 10 + at[5] - '0';
    return (*at == '+' ? 1 : -1) * minutes * 60000;
}

bool read_glibc(const std::string &text, int64_t *ms)
{
    tm parts = {};
    const char *at = strptime(text.c_str(), text.size() == 10 ? "%Y-%m-%d" : "%Y-%m-%dT%H:%M:%S", &parts);
    if (at == nullptr)
        return false;
    int milliseconds = fraction(&at);
    *ms = static_cast<int64_t>(timegm(&parts)) * 1000 + milliseconds - offset(at);
    return true;
}

// The whole seconds and the milliseconds of an instant.
time_t seconds_of(int64_t ms, int *rest)
{
    *rest = static_cast<int>((ms % 1000 + 1000) % 1000);
    return (ms - *rest) / 1000;
}

bool shift_glibc(int64_t from, int amount, Unit unit, int64_t *ms)
{
    int rest;
    time_t seconds = seconds_of(from, &rest);
    tm parts;
    if (gmtime_r(&seconds, &parts) == nullptr)
        return false;
    (unit == YEAR ? parts.tm_year : unit == MONTH ? parts.tm_mon : unit == DAY ? parts.tm_mday : parts.tm_hour) += amount;
    *ms = static_cast<int64_t>(timegm(&parts)) * 1000 + rest;
    return true;
}

bool write_glibc(int64_t ms, char *text)
{
    int rest;
    time_t seconds = seconds_of(ms, &rest);
    tm parts;
    char buffer[32];
    if (gmtime_r(&seconds, &parts) == nullptr || strftime(buffer, sizeof buffer, "%Y-%m-%dT%H:%M:%S", &parts) != 19)
        return false;
    std::memcpy(text, buffer, 19);
    const char end[] = {'.', static_cast<char>('0' + rest / 100), static_cast<char>('0' + rest / 10 % 10),
                        static_cast<char>('0' + rest % 10), 'Z'};
    std::memcpy(text + 19, end, sizeof end);
    return true;
}

// ---- the lines of the table

struct Line {
    std::string name;
    Measurement ours, glibc;
    std::function<bool()> agree;
};

std::vector<Line> lines;

// Milliseconds that an act gives; kept from the optimizer.
int64_t given[2];

void add_reading(const std::string &text)
{
    lines.push_back({"read " + text, Measurement([text] { return read_ours(text, &given[0]); }),
                     Measurement([text] { return read_glibc(text, &given[1]); }),
                     [] { return given[0] == given[1]; }});
}

void add_shift(const std::string &name, int64_t from, int amount, Unit unit)
{
    lines.push_back({name, Measurement([=] { return calendar_shift(from, amount, unit, &given[0]) == 0; }),
                     Measurement([=] { return shift_glibc(from, amount, unit, &given[1]); }),
                     [] { return given[0] == given[1]; }});
}

char written[2][24];

void add_writing(const std::string &name, int64_t ms)
{
    lines.push_back({name,
                     Measurement([ms] { return calendar_text(ms, reinterpret_cast<uint8_t *>(written[0]), 24) == 0; }),
                     Measurement([ms] { return write_glibc(ms, written[1]); }),
                     [] { return std::memcmp(written[0], written[1], 24) == 0; }});
}

} // namespace

int main(int argc, char **argv)
{
    int rounds = argc > 1 ? std::atoi(argv[1]) : 200;
    const int64_t in_2020 = 1580466030123, in_9999 = 253402251630123; // 31 January and 31 December, 10:20:30.123

    add_reading("2020-01-31");
    add_reading("2020-01-31T10:20:30Z");
    add_reading("2020-01-31T10:20:30.123456789+05:30");
    add_reading("9999-12-31T23:59:59.999-00:00");
    add_shift("shift by 30 days", in_2020, 30, DAY);
    add_shift("shift by a month", in_2020, 1, MONTH);
    add_shift("shift by a year", in_2020, 1, YEAR);
    add_shift("shift by 9999 years back", in_9999, -9999, YEAR);
    add_writing("write an instant of 2020", in_2020);
    add_writing("write an instant of 9999", in_9999);

    for (Line &line : lines)
        if (!line.ours.prepare() || !line.glibc.prepare() || !line.agree()) {
            std::fprintf(stderr, "%s: not done, or not alike: %" PRId64 " and %" PRId64 ", %.24s and %.24s\n",
                         line.name.c_str(), given[0], given[1], written[0], written[1]);
            return 1;
        }
    for (int round = 0; round < rounds; round++)
        for (Line &line : lines) {
            line.ours.measure();
            line.glibc.measure();
        }

    std::printf("nanoseconds, least of %d rounds\n%-42s %9s %9s\n", rounds, "", "ours", "glibc");
    for (const Line &line : lines)
        std::printf("%-42s %9.0f %9.0f\n", line.name.c_str(), line.ours.best, line.glibc.best);
    return 0;
}
