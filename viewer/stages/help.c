// The help text of stages. The wrapper ./stages prints these lines too, before anything is built:
// each stands by itself.
#include "help.h"

// clang-format off
const char help_text[] =
    "usage: stages [--live] [--hex] FILE [ADDRESS], or stages [--live] --json FILE\n"
    "\n"
    "Shows the boot stages, bench settings, tracks and attached files of a Matroska recording,\n"
    "each with its address: the number of bytes before it in the file.\n"
    "\n"
    "  stages FILE           editions and their stages by time, then tags, tracks and attachments\n"
    "  stages --json FILE    the same as JSON, in file order, with every address\n"
    "  stages FILE ADDRESS   whose byte that is; decimal, or hexadecimal after 0x\n"
    "  --live                for a recording that was streamed, or whose recorder was stopped:\n"
    "                        a size of all ones is not known, and a Cluster ends where the next begins\n"
    "  --hex                 each address in hexadecimal too, as 683/0x2AB\n"
    "  --help                this text\n"
    "  --                    ends the options\n"
    "\n"
    "A stage:  START END ADDRESS \"NAME\" LANGUAGE \"NAME\".. hidden disabled\n"
    "A tag:    tag ADDRESS target NUMBER .., and below it ADDRESS \"NAME\" ADDRESS \"VALUE\"\n"
    "Times are h:mm:ss.mmm. What is not set is -, and so is the name of a stage if it is empty.\n"
    "A text is shown up to its first zero byte. A control character in it is \\xNN.\n"
    "\n"
    "What can't be shown is told on standard error: what broke, its address, and what to do next.\n"
    "Status 0: shown. 1: a part is refused or not shown, or the file can't be read, is no\n"
    "Matroska file, was not finished or is cut off. 2: wrong arguments.\n"
    "Files of up to 4294967295 bytes are taken.\n";
// clang-format on
