/* ppsd: a Persistent Publish/Subscribe service at a Unix socket. It is outside of what is proved: it forwards whole
   frames to `pps frames`, which is proved, and routes the answers. */
#include <stdio.h>

#include "server.h"

enum { STATUS_BAD_WORDS = 2, STATUS_FAULT = 3 };

int main(int count, char **words) {
    struct options options;
    struct server server;
    switch (options_read(&options, count, words)) {
    case ASKED_FOR_HELP: return fputs(options_help, stdout) < 0 || fflush(stdout) != 0 ? STATUS_FAULT : 0;
    case ASKED_FOR_VERSION: return puts("ppsd 1") < 0 || fflush(stdout) != 0 ? STATUS_FAULT : 0;
    case ASKED_BADLY: fputs("ppsd: bad command line\n", stderr); return STATUS_BAD_WORDS;
    case ASKED_TO_SERVE: break;
    }
    return server_prepare(&server, &options) ? server_run(&server) : STATUS_FAULT;
}
