"""How the tools read a report, and how they end: what is not read or written is one line on standard error, and status 2, of tools/check 5."""
import codecs
import errno
import gc
import os
import sys


def text_of(name):
    """the text of a file, or for - that of standard input; a last character that was cut off is left out"""
    if name == '-':
        name, text = 'standard input', sys.stdin.buffer.read()
    else:
        with open(name, 'rb') as file:
            text = file.read()
    try:
        return codecs.getincrementaldecoder('utf-8')().decode(text)
    except UnicodeDecodeError as error:
        raise OSError(errno.EILSEQ, 'no UTF-8 at byte %d' % error.start, name) from None


def status_of(main, lost=2):
    """runs a tool, and gives the status that it ends with: `lost` where a file was not read or written"""
    # A board is many small objects and no rings of them; looking for rings would take a third of the time.
    gc.disable()
    try:
        status = main()
        # What standard output does not take shows here at the latest.
        print(end='', flush=True)
        return status
    except OSError as error:
        fault = ': '.join(part for part in (error.filename, error.strerror or str(error)) if part)
    except UnicodeError as error:
        fault = str(error)
    print('%s: %s' % (os.path.basename(sys.argv[0]), fault), file=sys.stderr)
    if sys.stdout:
        # What is left is not tried again at the end.
        os.dup2(os.open(os.devnull, os.O_WRONLY), sys.stdout.fileno())
    return lost
