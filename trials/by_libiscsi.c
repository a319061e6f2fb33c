/* One session of libiscsi, for scripts (trials/by_libiscsi.py builds and runs it): a line is a command, a line its end.
 *
 * usage: by_libiscsi HOST:PORT TARGET INITIATOR NUMBER      NUMBER makes the ISID
 * first:  ready                                             or: refused WHY
 * line:   UNIT CDB OUT EXPECTED                             CDB and OUT in hexadecimal, OUT - where there is none
 * end:    STATUS SENSE DATA                                 STATUS in decimal, the others in hexadecimal, - for none
 *
 * The end of the input logs out. Build: cc -o by_libiscsi by_libiscsi.c -liscsi */

#include <stdint.h>
#include <stdio.h>
#include <stdlib.h>
#include <string.h>
#include <sys/types.h>
#include <iscsi/iscsi.h>
#include <iscsi/scsi-lowlevel.h>

#define MOST (1 << 21)

static char line[2 * MOST + 128], cdb_text[64], out_text[2 * MOST + 1];
static unsigned char out[MOST];

/* How many bytes this text spells. */
static int bytes_of(const char *text, unsigned char *bytes, int most) {
    int count = 0;
    unsigned byte;
    if (!strcmp(text, "-"))
        return 0;
    while (count < most && sscanf(text + 2 * count, "%2x", &byte) == 1)
        bytes[count++] = (unsigned char)byte;
    return count;
}

static void say(const unsigned char *bytes, int count) {
    if (count <= 0)
        putchar('-');
    for (int at = 0; at < count; at++)
        printf("%02x", bytes[at]);
}

/* The sense of a command that failed stands behind two bytes of its length. */
static void tell_end(struct scsi_task *task) {
    int failed = task->status == SCSI_STATUS_CHECK_CONDITION;
    int count = task->datain.size;
    printf("%d ", task->status);
    say(task->datain.data + 2, failed ? count - 2 : 0);
    putchar(' ');
    say(task->datain.data, failed ? 0 : count);
    putchar('\n');
}

static void run(struct iscsi_context *session) {
    unsigned char cdb[SCSI_CDB_MAX_SIZE] = {0};
    int unit, expected;
    if (sscanf(line, "%d %63s %4194304s %d", &unit, cdb_text, out_text, &expected) != 4) {
        puts("? - -");
        return;
    }
    int length = bytes_of(cdb_text, cdb, SCSI_CDB_MAX_SIZE);
    struct iscsi_data data = {bytes_of(out_text, out, MOST), out};
    int way = data.size ? SCSI_XFER_WRITE : expected ? SCSI_XFER_READ : SCSI_XFER_NONE;
    struct scsi_task *task = scsi_create_task(length, cdb, way, data.size ? (int)data.size : expected);
    if (!task || !iscsi_scsi_command_sync(session, unit, task, data.size ? &data : NULL)) {
        puts("-1 - -");
    } else {
        tell_end(task);
    }
    if (task)
        scsi_free_scsi_task(task);
}

int main(int count, char **words) {
    struct iscsi_context *session = count == 5 ? iscsi_create_context(words[3]) : NULL;
    if (!session) {
        fputs("usage: by_libiscsi HOST:PORT TARGET INITIATOR NUMBER\n", stderr);
        return 2;
    }
    setvbuf(stdout, NULL, _IOLBF, 0);
    iscsi_set_isid_random(session, (uint32_t)strtoul(words[4], NULL, 0), 1);
    iscsi_set_targetname(session, words[2]);
    iscsi_set_session_type(session, ISCSI_SESSION_NORMAL);
    iscsi_set_header_digest(session, ISCSI_HEADER_DIGEST_NONE);
    iscsi_set_noautoreconnect(session, 1);
    if (iscsi_connect_sync(session, words[1]) || iscsi_login_sync(session)) {
        printf("refused %s\n", iscsi_get_error(session));
        return 1;
    }
    puts("ready");
    while (fgets(line, sizeof line, stdin))
        run(session);
    iscsi_logout_sync(session);
    iscsi_destroy_context(session);
    return 0;
}
