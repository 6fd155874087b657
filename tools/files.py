"""Which files a board has: the board of a folder, the project and the rules beside it, and why one cannot be read."""
import os

SUFFIXES = {'project': '.kicad_pro', 'rules': '.kicad_dru'}


class Unread(Exception):
    """a file that is not there or cannot be read: its words are the name and the cause"""


def cause(name):
    """why a file cannot be read, or None"""
    if os.path.isdir(name):
        return 'is a folder'
    try:
        with open(name, 'rb') as file:
            file.read(1)
    except OSError as error:
        return error.strerror or str(error)
    return None


def board_of(name):
    """the board that a word names: itself, or the one board of a folder"""
    if not os.path.isdir(name):
        return name
    boards = sorted(entry for entry in os.listdir(name) if entry.endswith('.kicad_pcb') and not entry.startswith(('_autosave-', '~', '.')))
    if len(boards) == 1:
        return os.path.normpath(os.path.join(name, boards[0]))
    raise Unread('%s: %s' % (name, 'no .kicad_pcb in this folder' if not boards else 'several boards in this folder, name one: ' + ', '.join(boards)))


def files_of(word, words):
    """the files of a board: the project and the rules that are named, or else those beside it"""
    board = board_of(word)
    files = {'board': board, 'project': None, 'rules': None, 'script': words.script}
    stem = board[:-len('.kicad_pcb')] if board.endswith('.kicad_pcb') else None
    for which, suffix in SUFFIXES.items():
        named, none = getattr(words, which), getattr(words, 'no_' + which)
        beside = stem + suffix if stem is not None else None
        files[which] = named if named else beside if beside and not none and os.path.exists(beside) else None
    return files


def read_check(files):
    """says which file cannot be read, and why, before anything is run"""
    for which in ('board', 'project', 'rules', 'script'):
        why = cause(files[which]) if files[which] is not None else None
        if why:
            raise Unread('%s: %s' % (files[which], why))


def said(files, words):
    """the first line: which files are taken"""
    told = [os.path.basename(files['board'])]
    for which in ('project', 'rules'):
        if files[which]:
            told.append('with ' + os.path.basename(files[which]))
        elif getattr(words, 'no_' + which):
            told.append('without a ' + which + ' (as asked)' if which == 'project' else 'without rules (as asked)')
        else:
            told.append('no %s beside it' % ('project (.kicad_pro)' if which == 'project' else 'rules (.kicad_dru)'))
    return ', '.join(told + (['script ' + os.path.basename(files['script'])] if files['script'] else []))
