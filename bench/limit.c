/* The limit: the least that a target does over a socket, and it checks nothing. bench/beside.py builds it and measures arrayd
 * beside it. It answers a login, INQUIRY, READ CAPACITY, and READ and WRITE of (10) and (16), each with GOOD and each with one
 * writev. One thread serves a connection; the blocks are a file that is mapped: a read's data goes out from there, a write's is
 * copied there. Answers that left together would take less where many commands are open: arrayd's do.
 *
 * With letters behind its file it sends the data of long READs as a program does that reads them into a buffer, to tell what each
 * step of that costs: in Data-In of 65536 bytes with a response behind them, which leaves with what follows it. All of a READ
 * leaves by one call.
 *     z  the buffer is set to zeros before each READ
 *     c  the data is copied behind the headers
 *     e  each Data-In leaves by a call of its own
 *     t  two Data-In leave by a call
 *     l  there is one Data-In of all data
 *     n  none of these
 *
 * usage: limit PORT FILE [LETTERS]        Build: cc -O2 -pthread -o limit limit.c */

#include <arpa/inet.h>
#include <endian.h>
#include <fcntl.h>
#include <netinet/tcp.h>
#include <pthread.h>
#include <signal.h>
#include <stdint.h>
#include <stdlib.h>
#include <string.h>
#include <sys/mman.h>
#include <sys/stat.h>
#include <sys/uio.h>
#include <unistd.h>

enum { BHS = 48, INBOX = 1 << 20, TAGS = 65536, BURST = 262144, SEGMENT = 65536, SEGMENTS = BURST / SEGMENT };

typedef struct {
    int socket;
    uint32_t stat_sn, cmd_sn;
    /* of each write, by its tag: where its next byte goes; how many came, and are to come */
    unsigned char *next[TAGS];
    uint32_t done[TAGS], left[TAGS];
    unsigned char inbox[INBOX];
    /* where letters are given: whether a response waits; what was read; what it is copied to */
    int waits;
    unsigned char response[BHS], data[BURST], out[BURST + BHS * (SEGMENTS + 1)];
} Session;

static unsigned char *map;
static uint64_t size;
static int file;
static const char *letters = "";
static const char KEYS[] = "HeaderDigest=None\0DataDigest=None\0InitialR2T=Yes\0ImmediateData=Yes\0MaxBurstLength=262144\0"
    "FirstBurstLength=65536\0MaxRecvDataSegmentLength=262144\0MaxOutstandingR2T=1\0ErrorRecoveryLevel=0\0MaxConnections=1\0"
    "DefaultTime2Wait=0\0DefaultTime2Retain=0\0DataPDUInOrder=Yes\0DataSequenceInOrder=Yes";
static const char TAG[] = "TargetPortalGroupTag=1\0AuthMethod=None";

static uint32_t get32(const unsigned char *at) { uint32_t n; memcpy(&n, at, 4); return ntohl(n); }
static void put32(unsigned char *at, uint32_t n) { n = htonl(n); memcpy(at, &n, 4); }

/* A header with the task tag of what came, and these numbers. */
static void header(Session *s, unsigned char *out, const unsigned char *came, int op, int flags) {
    memset(out, 0, BHS);
    out[0] = op;
    out[1] = flags;
    memcpy(out + 16, came + 16, 4);
    put32(out + 20, -1);
    put32(out + 24, s->stat_sn);
    put32(out + 28, s->cmd_sn);
    put32(out + 32, s->cmd_sn + 127);
}

/* Writes all of these parts. */
static void put_parts(Session *s, struct iovec *part, int count) {
    for (struct iovec *end = part + count; part < end;) {
        ssize_t n = writev(s->socket, part, end - part);
        if (n <= 0)
            pthread_exit(NULL);
        for (; part < end && (size_t)n >= part->iov_len; part++)
            n -= part->iov_len;
        if (part < end) {
            part->iov_base = (char *)part->iov_base + n;
            part->iov_len -= n;
        }
    }
}

/* Writes a PDU. */
static void put(Session *s, unsigned char *out, const void *data, uint32_t length) {
    struct iovec parts[2] = {{out, BHS}, {(void *)data, (length + 3) / 4 * 4}};
    put32(out + 4, length);
    put_parts(s, parts, 2);
}

/* Writes these parts, copied behind each other where that is wanted. */
static void put_read(Session *s, struct iovec *parts, int count) {
    size_t n = 0;
    if (!strchr(letters, 'c'))
        return put_parts(s, parts, count);
    for (int i = 0; i < count; n += parts[i++].iov_len)
        memcpy(s->out + n, parts[i].iov_base, parts[i].iov_len);
    put_parts(s, &(struct iovec){s->out, n}, 1);
}

/* The data of a READ, read into a buffer. */
static void answer_read(Session *s, const unsigned char *came, uint64_t at, uint32_t bytes) {
    uint32_t most = strchr(letters, 'l') ? BURST : SEGMENT, sn = 0;
    int together = strchr(letters, 'e') ? 1 : strchr(letters, 't') ? 2 : SEGMENTS, count = 0;
    unsigned char heads[SEGMENTS][BHS];
    struct iovec parts[2 * SEGMENTS + 1];
    if (strchr(letters, 'z'))
        memset(s->data, 0, bytes);
    if (pread(file, s->data, bytes, at) != (ssize_t)bytes)
        pthread_exit(NULL);
    if (s->waits)
        parts[count++] = (struct iovec){s->response, BHS};
    for (uint32_t from = 0, length; from < bytes; from += length) {
        unsigned char *out = heads[sn];
        length = bytes - from < most ? bytes - from : most;
        header(s, out, came, 0x25, from + length == bytes ? 0x80 : 0);
        put32(out + 4, length);
        put32(out + 36, sn++);
        put32(out + 40, from);
        parts[count++] = (struct iovec){out, BHS};
        parts[count++] = (struct iovec){s->data + from, length};
        if (from + length == bytes || sn % together == 0) {
            put_read(s, parts, count);
            count = 0;
        }
    }
    header(s, s->response, came, 0x21, 0x80);
    s->stat_sn++;
    s->waits = 1;
}

/* What waits goes out before more is read. */
static ssize_t read_more(Session *s, unsigned char *to, size_t room) {
    if (s->waits)
        put_parts(s, &(struct iovec){s->response, BHS}, 1);
    s->waits = 0;
    return read(s->socket, to, room);
}

/* Data of a write came: its end, or the R2T for more of it. */
static void take(Session *s, const unsigned char *came, const unsigned char *data, uint32_t length) {
    uint16_t tag = get32(came + 16);
    unsigned char out[BHS];
    memcpy(s->next[tag], data, length);
    s->next[tag] += length;
    s->done[tag] += length;
    s->left[tag] -= length;
    if (!s->left[tag]) {
        header(s, out, came, 0x21, 0x80);
        s->stat_sn++;
        put(s, out, NULL, 0);
    } else if (came[0] % 64 == 0x01 || came[1] & 0x80) {
        header(s, out, came, 0x31, 0x80);
        put32(out + 20, tag);
        put32(out + 40, s->done[tag]);
        put32(out + 44, s->left[tag] < BURST ? s->left[tag] : BURST);
        put(s, out, NULL, 0);
    }
}

static void command(Session *s, const unsigned char *came, const unsigned char *data, uint32_t length) {
    static const unsigned char inquiry[36] = {0, 0, 5, 2, 31, 0, 0, 2, 'L', 'I', 'M', 'I', 'T'};
    const unsigned char *cdb = came + 32;
    uint64_t at = (cdb[0] & 0x80 ? (uint64_t)get32(cdb + 2) << 32 | get32(cdb + 6) : get32(cdb + 2)) * 512;
    uint32_t bytes = (cdb[0] & 0x80 ? get32(cdb + 10) : cdb[7] << 8 | cdb[8]) * 512, most = get32(came + 20);
    unsigned char capacity[32] = {0}, out[BHS];
    if (!(came[0] & 0x40))
        s->cmd_sn++;
    if (cdb[0] == 0x2A || cdb[0] == 0x8A) {
        uint16_t tag = get32(came + 16);
        s->next[tag] = map + at % size;
        s->left[tag] = bytes;
        s->done[tag] = 0;
        return take(s, came, data, length);
    }
    if (*letters && (cdb[0] == 0x28 || cdb[0] == 0x88) && bytes >= SEGMENT / 2 && bytes <= BURST && bytes <= most)
        return answer_read(s, came, at % size, bytes);
    const void *reply = map + at % size;
    if (cdb[0] == 0x12) {
        reply = inquiry;
        bytes = sizeof inquiry;
    } else if (cdb[0] == 0x25 || cdb[0] == 0x9E) {
        int wide = cdb[0] == 0x9E;
        put32(capacity + 4 * wide, size / 512 - 1);
        put32(capacity + 4 * wide + 4, 512);
        reply = capacity;
        bytes = wide ? 32 : 8;
    } else if (cdb[0] != 0x28 && cdb[0] != 0x88) {
        bytes = 0;
    }
    /* the status comes with the data */
    header(s, out, came, bytes ? 0x25 : 0x21, bytes ? 0x81 : 0x80);
    s->stat_sn++;
    put(s, out, reply, bytes < most ? bytes : most);
}

static void pdu(Session *s, const unsigned char *came, const unsigned char *data, uint32_t length) {
    int is_last = (came[1] & 0x03) == 3;
    unsigned char out[BHS];
    switch (came[0] & 0x3F) {
    case 0x01:
        return command(s, came, data, length);
    case 0x05:
        return take(s, came, data, length);
    case 0x03:
        s->cmd_sn = get32(came + 24);
        header(s, out, came, 0x23, came[1]);
        memcpy(out + 8, came + 8, 6);
        out[15] = is_last;
        put32(out + 20, 0);
        s->stat_sn++;
        return put(s, out, is_last ? KEYS : TAG, is_last ? sizeof KEYS : sizeof TAG);
    default:
        pthread_exit(NULL);
    }
}

static void *serve(void *of) {
    Session *s = of;
    size_t from = 0, to = 0;
    for (ssize_t n; (n = read_more(s, s->inbox + to, INBOX - to)) > 0;) {
        for (to += n; to - from >= BHS;) {
            uint32_t length = get32(s->inbox + from + 4) & 0xFFFFFF;
            size_t end = from + BHS + (length + 3) / 4 * 4;
            if (end > to)
                break;
            pdu(s, s->inbox + from, s->inbox + from + BHS, length);
            from = end;
        }
        memmove(s->inbox, s->inbox + from, to -= from);
        from = 0;
    }
    return NULL;
}

int main(int count, char **words) {
    if (count != 3 && count != 4)
        return 2;
    if (count == 4)
        letters = words[3];
    file = open(words[2], O_RDWR);
    int on = 1, door = socket(AF_INET, SOCK_STREAM, 0);
    struct stat found;
    struct sockaddr_in here = {.sin_family = AF_INET, .sin_port = htons(atoi(words[1])), .sin_addr = {htonl(INADDR_LOOPBACK)}};
    if (file < 0 || fstat(file, &found))
        return 1;
    signal(SIGPIPE, SIG_IGN);
    size = found.st_size;
    map = mmap(NULL, size + BURST, PROT_READ | PROT_WRITE, MAP_SHARED | MAP_POPULATE, file, 0);
    setsockopt(door, SOL_SOCKET, SO_REUSEADDR, &on, sizeof on);
    if (map == MAP_FAILED || bind(door, (struct sockaddr *)&here, sizeof here) || listen(door, 128))
        return 1;
    write(1, "limit: ready\n", 13);
    for (int came; (came = accept(door, NULL, NULL)) >= 0;) {
        pthread_t worker;
        Session *session = calloc(1, sizeof *session);
        session->socket = came;
        session->stat_sn = 1;
        setsockopt(came, IPPROTO_TCP, TCP_NODELAY, &on, sizeof on);
        pthread_create(&worker, NULL, serve, session);
        pthread_detach(worker);
    }
}
