/* What `enogate replay --base ID [--explain]` does for the workloads of `bench/workloads.py`, in plain C: a baseline
 * for its speed, without any proof. The devices are in memory, and each line of output is one write().
 * `bench/instructions` and `bench/replay` compare the output of the two.
 *
 * The only orders are `add` of four kinds of devices, and `status`: the learn window is never open, nothing is sent,
 * and no device is deleted. The table of devices is made for IDs as they come in practice; whoever chooses them can
 * make it slow.
 */
#define _POSIX_C_SOURCE 200809L
#include <errno.h>
#include <signal.h>
#include <stdbool.h>
#include <stdint.h>
#include <stdio.h>
#include <stdlib.h>
#include <string.h>
#include <unistd.h>

enum {
    READ_SIZE = 256,      /* bytes of a read */
    MAX_LINE = 200,       /* bytes of the longest line */
    MAX_CHUNK = 99,       /* bytes of the longest chunk */
    BUFFER_SIZE = 262144, /* for bytes of the serial line: those held, fewer than 65,797, and chunks */
    MAX_DEVICES = 1000,   /* devices at most */
    SLOT_COUNT = 4096,    /* slots of the hash table, a power of two */
    SLOT_BITS = 12,
    CRC_PERIOD = 127,     /* x has this order modulo the polynomial of the check */
};

/* The RORGs of the telegrams that are read. */
enum { RPS = 0xF6, ONE_BYTE = 0xD5, FOUR_BYTE = 0xA5 };

static const uint32_t BROADCAST_ID = 0xFFFFFFFF; /* the ID of all: of no device, and so the mark of a free slot */

/* The line of output. The longest is that of a telegram with five readings, after the line that explains it. */

static char output[1000];
static size_t output_length;

#define TEXT(literal) put_bytes(literal, sizeof literal - 1)

static void put_bytes(const char *bytes, size_t count) {
    memcpy(output + output_length, bytes, count);
    output_length += count;
}

static void put_word(const char *word) {
    put_bytes(word, strlen(word));
}

static inline void put_number(uint64_t number) {
    char digits[20];
    size_t first_digit = sizeof digits;
    do
        digits[--first_digit] = (char)('0' + number % 10);
    while (number /= 10);
    put_bytes(digits + first_digit, sizeof digits - first_digit);
}

static void put_byte(uint8_t byte) {
    static const char DIGITS[] = "0123456789ABCDEF";
    output[output_length++] = DIGITS[byte >> 4];
    output[output_length++] = DIGITS[byte & 15];
}

static void put_id(uint32_t id) {
    for (int shift = 24; shift >= 0; shift -= 8)
        put_byte((uint8_t)(id >> shift));
}

static void put_eep(uint32_t eep) {
    put_byte((uint8_t)(eep >> 16));
    TEXT("-");
    put_byte((uint8_t)(eep >> 8));
    TEXT("-");
    put_byte((uint8_t)eep);
}

static void stop(const char *cause) {
    fprintf(stderr, "enogate: %s\n", cause);
    exit(1);
}

/* Writes the line that begins there, after one that is not complete yet. */
static void write_from(size_t line_start) {
    TEXT("\n");
    for (size_t written_size = line_start; written_size < output_length;) {
        ssize_t count = write(STDOUT_FILENO, output + written_size, output_length - written_size);
        if (count > 0)
            written_size += (size_t)count;
        else if (count == 0 || errno != EINTR)
            stop("write");
    }
    output_length = line_start;
}

static void write_line(void) {
    write_from(0);
}

/* The readings. Each ends with a comma, and whoever closes the list puts the bracket over the last one. */

/* A value of num/den. */
static void put_value_reading(const char *name, const char *unit, int64_t numerator, uint32_t denominator) {
    uint32_t magnitude = (uint32_t)(numerator < 0 ? -numerator : numerator);
    uint32_t divisor = denominator, remainder = magnitude;
    while (remainder != 0) {
        uint32_t next_remainder = divisor % remainder;
        divisor = remainder;
        remainder = next_remainder;
    }
    TEXT("{\"den\":");
    put_number(denominator / divisor);
    TEXT(",\"name\":\"");
    put_word(name);
    TEXT("\",\"num\":");
    if (numerator < 0)
        TEXT("-");
    put_number(magnitude / divisor);
    TEXT(",\"unit\":\"");
    put_word(unit);
    TEXT("\"},");
}

static void put_word_reading(const char *name, const char *value_word) {
    TEXT("{\"name\":\"");
    put_word(name);
    TEXT("\",\"word\":\"");
    put_word(value_word);
    TEXT("\"},");
}

static void put_out_of_range_reading(const char *name, uint32_t number) {
    TEXT("{\"name\":\"");
    put_word(name);
    TEXT("\",\"out_of_range\":");
    put_number(number);
    TEXT("},");
}

static uint32_t big_endian_number(const uint8_t *bytes) {
    return (uint32_t)bytes[0] << 24 | (uint32_t)bytes[1] << 16 | (uint32_t)bytes[2] << 8 | bytes[3];
}

/* A number from 0 to `most` that stands for `low` to `high`. */
static void put_scaled_reading(const char *name, const char *unit, int raw, int last_raw, int first_value,
                               int last_value) {
    if (raw <= last_raw)
        put_value_reading(name, unit, first_value * last_raw + raw * (last_value - first_value), (uint32_t)last_raw);
    else
        put_out_of_range_reading(name, (uint32_t)raw);
}

/* The readings of a telegram by a profile. */

static void read_contact(uint32_t eep, const uint8_t *payload, uint8_t status) {
    (void)eep, (void)status;
    put_word_reading("CO", payload[0] & 1 ? "closed" : "open");
}

static void put_rocker_action(const char *name, unsigned action_number) {
    static const char *const BUTTONS[] = {"AI", "A0", "BI", "B0"};
    if (action_number < sizeof BUTTONS / sizeof *BUTTONS)
        put_word_reading(name, BUTTONS[action_number]);
    else
        put_out_of_range_reading(name, action_number);
}

static void read_rocker(uint32_t eep, const uint8_t *payload, uint8_t status) {
    unsigned first_action = payload[0] >> 5;
    const char *bow_word = payload[0] & 0x10 ? "pressed" : "released";
    (void)eep;
    if (status & 0x10) {
        put_rocker_action("R1", first_action);
        put_word_reading("EB", bow_word);
        if (payload[0] & 1)
            put_rocker_action("R2", payload[0] >> 1 & 7);
    } else {
        if (first_action == 0 || first_action == 3)
            put_word_reading("buttons", first_action ? "three_or_four" : "none");
        else
            put_out_of_range_reading("buttons", first_action);
        put_word_reading("EB", bow_word);
    }
}

static void read_temperature(uint32_t eep, const uint8_t *payload, uint8_t status) {
    int eep_type = eep & 255, least = 10 * eep_type - (eep_type < 0x10 ? 50 : 220), range = eep_type < 0x10 ? 40 : 80;
    (void)status;
    put_scaled_reading("TMP", "C", 255 - payload[2], 255, least, least + range);
}

static void read_occupancy(uint32_t eep, const uint8_t *payload, uint8_t status) {
    int eep_type = eep & 255;
    (void)status;
    put_value_reading("SVC", "V", 51 * payload[0], 2550);
    put_value_reading("ILL", "lx", 510 * eep_type * payload[1], 255);
    put_value_reading("TMP", "C", eep_type < 3 ? 51 * payload[2] : 80 * payload[2] - 30 * 255, 255);
    put_word_reading("PIRS", payload[3] & 2 ? "off" : "on");
    put_word_reading("OCC", payload[3] & 1 ? "released" : "pressed");
}

/* The profiles that are read, by their first and last number. */

struct profile {
    uint32_t first, last;
    void (*read)(uint32_t eep, const uint8_t *payload, uint8_t status);
};

static const struct profile PROFILES[] = {
    {0xD50001, 0xD50001, read_contact},
    {0xF60201, 0xF60202, read_rocker},
    {0xA50201, 0xA5020B, read_temperature},
    {0xA50801, 0xA50803, read_occupancy},
};

static const struct profile *profile_of(uint32_t eep) {
    for (size_t index = 0; index < sizeof PROFILES / sizeof *PROFILES; index++)
        if (PROFILES[index].first <= eep && eep <= PROFILES[index].last)
            return &PROFILES[index];
    return NULL;
}

/* The learned devices: a hash table, searched from a slot on to the first free one. */

struct device {
    uint32_t id, eep;
    const struct profile *profile;
};

static struct device devices[SLOT_COUNT];
static size_t learned_count;

static size_t first_slot(uint32_t id) {
    return id * 2654435761u >> (32 - SLOT_BITS);
}

/* The device with this ID, or the free slot where it goes. */
static struct device *find_slot(uint32_t id) {
    size_t slot = first_slot(id);
    while (devices[slot].id != id && devices[slot].id != BROADCAST_ID)
        slot = (slot + 1) % SLOT_COUNT;
    return &devices[slot];
}

/* Learns a device, or returns that 1,000 others are learned. */
static bool learn(uint32_t id, uint32_t eep) {
    struct device *device = find_slot(id);
    if (device->id == BROADCAST_ID && learned_count++ == MAX_DEVICES)
        return false;
    device->id = id;
    device->eep = eep;
    device->profile = profile_of(eep);
    return true;
}

/* The packets of the radio module. Each is a reading, or is ignored. */

enum { RADIO_ERP1 = 1 };

static uint64_t reading_count, ignored_count;
static uint32_t base_id;
static bool explains;

static void put_dbm(int dbm) {
    if (dbm < 0) {
        TEXT("null");
    } else {
        if (dbm != 0)
            TEXT("-");
        put_number((uint64_t)dbm);
    }
}

/* Explains a telegram that is read. */
static void explain(const struct device *device, const uint8_t *data, size_t size, uint32_t destination, int dbm) {
    size_t line_start = output_length;
    TEXT("{\"dbm\":");
    put_dbm(dbm);
    TEXT(",\"dest\":");
    if (destination == BROADCAST_ID) {
        TEXT("null");
    } else {
        TEXT("\"");
        put_id(destination);
        TEXT("\"");
    }
    TEXT(",\"eep\":\"");
    put_eep(device->eep);
    TEXT("\",\"id\":\"");
    put_id(device->id);
    TEXT("\",\"maker\":null,\"payload\":\"");
    for (size_t index = 1; index < size - 5; index++)
        put_byte(data[index]);
    TEXT("\",\"rorg\":\"");
    put_byte(data[0]);
    TEXT("\",\"status\":\"");
    put_byte(data[size - 1]);
    TEXT("\",\"type\":\"packet\",\"why\":\"read\"}");
    write_from(line_start);
}

/* Reports the readings of a telegram of a learned device. */
static void report_reading(const struct device *device, const uint8_t *data, size_t size, uint32_t destination,
                           int dbm) {
    TEXT("{\"dbm\":");
    put_dbm(dbm);
    TEXT(",\"eep\":\"");
    put_eep(device->eep);
    TEXT("\",\"id\":\"");
    put_id(device->id);
    TEXT("\",\"readings\":[");
    device->profile->read(device->eep, data + 1, data[size - 1]);
    output_length--;
    TEXT("],\"type\":\"reading\"}");
    if (explains)
        explain(device, data, size, destination, dbm);
    write_line();
}

/* Whether the data are a telegram of a kind that can be read, and not for teach-in: RORG, payload, sender, status. */
static bool is_data(const uint8_t *data, size_t size) {
    if (size < 7)
        return false;
    switch (data[0]) {
    case RPS:
        return size == 7;
    case ONE_BYTE:
        return size == 7 && data[1] & 0x08;
    case FOUR_BYTE:
        return size == 10 && data[4] & 0x08;
    default:
        return false;
    }
}

/* Reports a telegram, if it is read. The first seven bytes of the optional data, if there are that many, are the number
 * of subtelegrams, the destination, the signal strength and the security. */
static bool handle_telegram(const uint8_t *data, size_t size, const uint8_t *optional, size_t optional_size) {
    if (!is_data(data, size))
        return false;
    int dbm = optional_size >= 7 ? optional[5] : -1;
    uint32_t destination = optional_size >= 7 ? big_endian_number(optional + 1) : BROADCAST_ID;
    uint32_t sender = big_endian_number(data + size - 5);
    if (sender == BROADCAST_ID || (destination != BROADCAST_ID && (destination & ~(uint32_t)127) != base_id))
        return false;
    const struct device *device = find_slot(sender);
    if (device->id == BROADCAST_ID || data[0] != device->eep >> 16)
        return false;
    report_reading(device, data, size, destination, dbm);
    return true;
}

static void handle_packet(uint8_t packet_type, const uint8_t *data, size_t size, size_t optional_size) {
    if (packet_type == RADIO_ERP1 && handle_telegram(data, size, data + size, optional_size))
        reading_count++;
    else
        ignored_count++;
}

/* The serial line. The bytes from `buffer_start` to `buffer_end` are held, and searched again once there are some up to
 * `needed_end`.
 *
 * A check is CRC-8 with x^8 + x^2 + x + 1. `crcs` has those over the bytes from some place on, up to each of the
 * places up to `crc_end`. The check from a to b is the one up to b less x^(8 (b - a)) times the one up to a, so that a
 * byte goes through the table once for all the false headers before it. `crc_shifts` has these products. */

static uint8_t crc_table[256]; /* the check of one byte */
static uint8_t buffer[BUFFER_SIZE], crcs[BUFFER_SIZE];
static size_t buffer_start, buffer_end, needed_end, crc_end;
static uint8_t crc_shifts[CRC_PERIOD][256];

static void make_tables(void) {
    for (int byte = 0; byte < 256; byte++) {
        int crc = byte;
        for (int bit = 0; bit < 8; bit++)
            crc = crc & 0x80 ? crc << 1 ^ 0x107 : crc << 1;
        crc_table[byte] = (uint8_t)crc;
        crc_shifts[0][byte] = (uint8_t)byte;
    }
    for (int power = 1; power < CRC_PERIOD; power++)
        for (int byte = 0; byte < 256; byte++)
            crc_shifts[power][byte] = crc_table[crc_shifts[power - 1][byte]];
}

static uint8_t header_crc(const uint8_t *header) {
    return crc_table[crc_table[crc_table[crc_table[header[0]] ^ header[1]] ^ header[2]] ^ header[3]];
}

/* The check over the bytes from `from` to `to`. */
static uint8_t crc_between(size_t first, size_t past_last) {
    if (crc_end < first) {
        crc_end = first;
        crcs[first] = 0;
    }
    for (; crc_end < past_last; crc_end++)
        crcs[crc_end + 1] = crc_table[crcs[crc_end] ^ buffer[crc_end]];
    return crcs[past_last] ^ crc_shifts[(past_last - first) % CRC_PERIOD][crcs[first]];
}

/* Handles the packets that are there. */
static void handle_packets(void) {
    while (buffer_end >= needed_end) {
        const uint8_t *sync = memchr(buffer + buffer_start, 0x55, buffer_end - buffer_start);
        if (sync == NULL) {
            buffer_start = needed_end = buffer_end;
            return;
        }
        buffer_start = (size_t)(sync - buffer);
        needed_end = buffer_start + 6;
        if (buffer_end < needed_end)
            return;
        size_t data_size = (size_t)sync[1] << 8 | sync[2], optional_size = sync[3];
        if (header_crc(sync + 1) != sync[5] || data_size + optional_size == 0) {
            needed_end = ++buffer_start;
            continue;
        }
        size_t crc_place = buffer_start + 6 + data_size + optional_size;
        needed_end = crc_place + 1;
        if (buffer_end < needed_end)
            return;
        if (crc_between(buffer_start + 6, crc_place) != buffer[crc_place]) {
            needed_end = ++buffer_start;
            continue;
        }
        handle_packet(sync[4], sync + 6, data_size, optional_size);
        buffer_start = needed_end;
    }
}

/* Memory for a chunk after the held bytes. */
static uint8_t *make_room(void) {
    if (buffer_end + MAX_CHUNK >= BUFFER_SIZE) {
        memmove(buffer, buffer + buffer_start, buffer_end - buffer_start);
        if (crc_end > buffer_start)
            memmove(crcs, crcs + buffer_start, crc_end - buffer_start + 1);
        else
            crcs[0] = 0;
        crc_end = crc_end > buffer_start ? crc_end - buffer_start : 0;
        needed_end -= buffer_start;
        buffer_end -= buffer_start;
        buffer_start = 0;
    }
    return buffer + buffer_end;
}

/* The orders. */

static int8_t digit_values[256]; /* the value of a hexadecimal digit, or -1 */

static void make_digits(void) {
    memset(digit_values, -1, sizeof digit_values);
    for (int value = 0; value < 10; value++)
        digit_values['0' + value] = (int8_t)value;
    for (int value = 10; value < 16; value++)
        digit_values['A' + value - 10] = digit_values['a' + value - 10] = (int8_t)value;
}

/* Reads this many hexadecimal digits after those that were read before. */
static bool read_digits(const char *output, int count, uint32_t *value) {
    for (int index = 0; index < count; index++) {
        int digit_value = digit_values[(uint8_t)output[index]];
        if (digit_value < 0)
            return false;
        *value = *value << 4 | (uint32_t)digit_value;
    }
    return true;
}

/* Reads a profile, as D5-00-01. */
static bool read_eep(const char *output, uint32_t *eep) {
    return read_digits(output, 2, eep) && output[2] == '-' && read_digits(output + 3, 2, eep) && output[5] == '-'
        && read_digits(output + 6, 2, eep);
}

static void handle_add(uint32_t id, uint32_t eep) {
    if (id == BROADCAST_ID || profile_of(eep) == NULL || !learn(id, eep))
        stop("a device that no workload has");
    TEXT("{\"eep\":\"");
    put_eep(eep);
    TEXT("\",\"id\":\"");
    put_id(id);
    TEXT("\",\"maker\":null,\"result\":\"accepted\",\"type\":\"teach\"}");
    write_line();
}

static void write_status(void) {
    TEXT("{\"ignored\":");
    put_number(ignored_count);
    TEXT(",\"mode\":\"closed\",\"readings\":");
    put_number(reading_count);
    TEXT(",\"refused\":0,\"responses\":0,\"teach\":0,\"type\":\"status\"}");
    write_line();
}

static void handle_order(const char *line, size_t size) {
    uint32_t id = 0, eep = 0;
    if (size == sizeof "add 01800ABC D5-00-01" - 1 && memcmp(line, "add ", 4) == 0 && read_digits(line + 4, 8, &id)
        && line[12] == ' ' && read_eep(line + 13, &eep))
        handle_add(id, eep);
    else if (size == sizeof "status" - 1 && memcmp(line, "status", size) == 0)
        write_status();
    else
        stop("an order that no workload has");
}

/* Appends the chunk that a line spells to the held bytes. Returns false if it spells none. */
static bool append_chunk(const char *line, size_t size) {
    if (size < 2 || size % 2 != 0 || line[0] != 'S' || line[1] != ' ')
        return false;
    uint8_t *write_place = make_room();
    for (size_t index = 2; index < size; index += 2) {
        int high = digit_values[(uint8_t)line[index]], low = digit_values[(uint8_t)line[index + 1]];
        if ((high | low) < 0)
            return false;
        *write_place++ = (uint8_t)(high << 4 | low);
    }
    buffer_end = (size_t)(write_place - buffer);
    handle_packets();
    return true;
}

static void handle_line(const char *line, size_t size) {
    if (size > MAX_LINE)
        stop("a line that no workload has");
    else if (!append_chunk(line, size))
        handle_order(line, size);
}

/* The lines. Of a line that is too long only the first bytes are kept, one more than it may have and its CR. */
static void replay(void) {
    static char chunk[READ_SIZE], line[MAX_LINE + 2];
    size_t line_size = 0;
    bool is_unended = false;
    for (;;) {
        ssize_t count = read(STDIN_FILENO, chunk, sizeof chunk);
        if (count < 0 && errno == EINTR)
            continue;
        if (count < 0)
            stop("read");
        if (count == 0)
            break;
        const char *rest_start = chunk, *chunk_end = chunk + count;
        while (rest_start < chunk_end) {
            const char *line_end = memchr(rest_start, '\n', (size_t)(chunk_end - rest_start));
            size_t part_size = (size_t)((line_end ? line_end : chunk_end) - rest_start);
            size_t kept_size = sizeof line - line_size;
            if (kept_size > part_size)
                kept_size = part_size;
            memcpy(line + line_size, rest_start, kept_size);
            line_size += kept_size;
            is_unended = line_end == NULL;
            if (is_unended)
                break;
            handle_line(line, line_size - (line_size > 0 && line[line_size - 1] == '\r'));
            line_size = 0;
            rest_start = line_end + 1;
        }
    }
    if (is_unended)
        handle_line(line, line_size);
}

int main(int argument_count, char **arguments) {
    explains = argument_count == 5 && strcmp(arguments[4], "--explain") == 0;
    if (argument_count != 4 + explains || strcmp(arguments[1], "replay") != 0 || strcmp(arguments[2], "--base") != 0) {
        fputs("usage: baseline replay --base ID [--explain]\n", stderr);
        return 2;
    }
    make_tables();
    make_digits();
    if (strlen(arguments[3]) != 8 || !read_digits(arguments[3], 8, &base_id) || base_id < 0xFF800000
        || base_id > 0xFFFFFF80 || base_id % 128 != 0) {
        fputs("enogate: bad base\n", stderr);
        return 2;
    }
    signal(SIGPIPE, SIG_IGN);
    for (size_t slot = 0; slot < SLOT_COUNT; slot++)
        devices[slot].id = BROADCAST_ID;
    replay();
}
