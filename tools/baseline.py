"""A baseline: what an earlier run found, by the fingerprints of its JSON, so that new findings alone fail a run."""
import json


def known(name):
    """the fingerprints in a file that --json wrote; ValueError where it is none"""
    with open(name, 'rb') as file:
        told = json.loads(file.read().decode('utf-8'))
    found = set()
    for one in told if isinstance(told, list) else [told]:
        if not isinstance(one, dict) or one.get('format') != 'drc-report/1':
            raise ValueError('is no report that --json wrote')
        states = [state for state in one.get('states', []) if 'rows' in state]
        for state in states[-1:]:
            found.update(part['fingerprint'] for key in ('rows', 'open_nets', 'not_checked') for part in state[key])
    return found
