/* Codes: this client's and those of the library for hives in memory stand beside each other in one
 * program. */
#include "../../../crates/regtx_c/regtx.h"
#include "check.h"

#include <string.h>

/* Each code of both headers, once. Two of one number would be no program. */
static const char *header_of(int code)
{
    switch (code) {
    case REGTX_OK:
    case REGTX_NO_MEMORY:
    case REGTX_NOT_FOUND:
    case REGTX_HAS_SUBKEYS:
    case REGTX_BAD_NAME:
    case REGTX_TOO_DEEP:
    case REGTX_TOO_LARGE:
    case REGTX_CONFLICT:
    case REGTX_NOT_ACTIVE:
    case REGTX_NO_SUCH_HANDLE:
    case REGTX_NO_SEAT:
    case REGTX_JOURNAL_FULL:
    case REGTX_HISTORY_FULL:
    case REGTX_DISK_FAULT:
    case REGTX_FAULTED:
    case REGTX_HIVE_DAMAGED:
    case REGTX_JOURNAL_DAMAGED:
    case REGTX_UNSUPPORTED:
    case REGTX_FIXED:
        return "both";
    case REGTX_NOT_OPEN:
    case REGTX_NO_ROOM:
    case REGTX_TRUNCATED:
    case REGTX_BAD_BASE:
    case REGTX_BAD_BIN:
    case REGTX_BAD_CELL:
    case REGTX_BAD_OFFSET:
    case REGTX_BAD_RECORD:
    case REGTX_BAD_LIST:
    case REGTX_BAD_STORED_NAME:
    case REGTX_SHARED:
    case REGTX_BAD_LOG:
    case REGTX_NOT_CLEAN:
    case REGTX_BAD_STORE:
    case REGTX_HIVE_TOO_LARGE:
        return "library";
    case REGTX_ENDED:
    case REGTX_COMMIT_UNKNOWN:
    case REGTX_CANNOT_OPEN:
    case REGTX_CANNOT_MAKE:
    case REGTX_WRONG_NAME:
    case REGTX_TOO_SMALL:
    case REGTX_WRONG_DATA:
    case REGTX_CLIENT_MEMORY:
    case REGTX_IO:
    case REGTX_REPLY:
    case REGTX_OTHER_PROCESS:
    case REGTX_CANNOT_READ:
    case REGTX_NOT_TRUSTED:
    case REGTX_CANNOT_FOLLOW:
    case REGTX_FOLLOWED:
        return "client";
    default:
        return "none";
    }
}

void test_codes(void)
{
    static const char none[] = "no code";
    for (int code = -1; code < 1600; code++) {
        const char *header = header_of(code);
        bool has_text = strcmp(header, "both") == 0 || strcmp(header, "client") == 0;
        /* one check for all that are no code */
        if (has_text || strcmp(regtx_client_text(code), none) != 0)
            CHECK(has_text && strcmp(regtx_client_text(code), none) != 0);
    }
    CHECK(strcmp(regtx_client_text(REGTX_NO_ROOM), none) == 0);
    CHECK(strcmp(regtx_client_text(REGTX_ENDED), "the run ended early") == 0);
    CHECK(strcmp(regtx_client_text(REGTX_REPLY), "not a reply") == 0);
}
