/* Standard input, output and error that the program was started without. A file that is opened would take their number, and what is
 * written to them would go into it. */
#define _POSIX_C_SOURCE 200809L

#include "cli.h"

#include <errno.h>
#include <fcntl.h>
#include <string.h>
#include <unistd.h>

/* Input is opened for writing and output for reading: whoever asks for the text of a closed input, or would lose a result, is still told so.
 * Words to a closed standard error are lost, as was asked for. */
void open_standard_descriptors(void)
{
    static const int modes[] = { O_WRONLY, O_RDONLY, O_WRONLY };
    for (int i = STDIN_FILENO; i <= STDERR_FILENO; i++)
        if (fcntl(i, F_GETFD) < 0 && open("/dev/null", modes[i]) != i)
            fail("/dev/null", strerror(errno));
}
