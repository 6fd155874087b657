"""The files that tools/check writes, all from one reading. A file is written whole or not at all: beside it first, and then renamed."""
import json
import os
import sys
import gitlab
import junit
import kicad_json
import markdown
import sarif
import view

KINDS = ('html', 'json', 'kicad-json', 'sarif', 'junit', 'markdown', 'gitlab')


def put(name, text):
    """writes a file; a name that is a device or a pipe is written as it is, and - is standard output"""
    data = text if isinstance(text, bytes) else text.encode('utf-8', 'surrogateescape')
    if name == '-':
        sys.stdout.buffer.write(data)
        sys.stdout.flush()
        return
    if os.path.exists(name) and not os.path.isfile(name):
        with open(name, 'wb') as file:
            file.write(data)
        return
    beside = '%s.%d.part' % (name, os.getpid())
    try:
        with open(beside, 'wb') as file:
            file.write(data)
        os.replace(beside, name)
    except OSError as error:
        if os.path.exists(beside):
            os.unlink(beside)
        raise OSError(error.errno, error.strerror, name) from None


def name_for(name, board, several):
    """the name of a file of one board, which has the board's name in it where there are several"""
    if not several or name == '-':
        return name
    stem, suffix = os.path.splitext(name)
    return '%s-%s%s' % (stem, os.path.splitext(os.path.basename(board))[0], suffix)


def asked(words):
    """the files that the words name, by the kinds"""
    return {kind: getattr(words, kind.replace('-', '_')) for kind in KINDS + ('raw',)}


def page(one):
    """the page of a board that was checked"""
    return view.page_of(os.path.basename(one.files['board']), one.result, one.result.page)


def write(done, words):
    """writes all that the words ask for"""
    told, several = [one for one in done if one.verdict], len(done) > 1
    verdicts = [one.verdict for one in told]
    names = asked(words)
    if names['raw']:
        for one in done:
            put(name_for(names['raw'], one.files['board'], several), one.raw)
    for one in told:
        if names['html']:
            put(name_for(names['html'], one.files['board'], several), page(one))
        if names['kicad-json']:
            put(name_for(names['kicad-json'], one.files['board'], several), json.dumps(kicad_json.in_kicad_json(one.result), indent=1) + '\n')
    if names['json']:
        documents = [one.result.document() for one in told]
        put(names['json'], json.dumps(documents if several else documents[0] if documents else None, indent=1) + '\n')
    if names['sarif']:
        levels = {'open': 'error' if 'open' in words.fail_on else 'note'}
        put(names['sarif'], json.dumps(sarif.in_sarif([(one.result, one.result.told()) for one in told], levels), indent=1) + '\n')
    if names['junit']:
        put(names['junit'], junit.in_junit(verdicts))
    if names['markdown']:
        put(names['markdown'], markdown.in_markdown(verdicts))
    if names['gitlab']:
        put(names['gitlab'], json.dumps(gitlab.in_gitlab(verdicts), indent=1) + '\n')
