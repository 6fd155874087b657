"""What the project of a board says of severities and exclusions, which `drc` does not read: for the tools to mark rows with.

A row is never left out here. `off` says in a word what the project has switched off: `ignored`, or `excluded` where the row is among the
violations that somebody excluded by hand; `severity` is that of the project for the kind, or None.
"""
import json
from kinds import KINDS


class Wishes:
    """the severities and the exclusions of a project's text"""

    def __init__(self, data):
        settings = data.get('board', {}) if isinstance(data, dict) else {}
        settings = settings.get('design_settings', {}) if isinstance(settings, dict) else {}
        settings = settings if isinstance(settings, dict) else {}
        severities, excluded = settings.get('rule_severities'), settings.get('drc_exclusions')
        self.severities = {key: word for key, word in severities.items() if isinstance(word, str)} if isinstance(severities, dict) else {}
        self.excluded = set()
        for entry in excluded if isinstance(excluded, list) else []:
            # KiCad 8 has a comment beside it.
            text = entry[0] if isinstance(entry, list) and entry else entry
            parts = text.split('|') if isinstance(text, str) else []
            if len(parts) >= 5:
                self.excluded.add((parts[0], frozenset(part for part in parts[3:5] if part.strip('0-'))))

    @classmethod
    def read(cls, name):
        """those of a file; None without one, or where it is no JSON, which is for drc to say"""
        if name is None:
            return None
        with open(name, 'rb') as file:
            text = file.read()
        try:
            return cls(json.loads(text.decode('utf-8', 'replace')))
        except (ValueError, RecursionError):
            return None

    def of(self, kind, items):
        """what the project says of a row of a kind, or of an open net"""
        keys = KINDS[kind].keys if kind in KINDS else ('unconnected_items',)
        severity = next((self.severities[key] for key in keys if key in self.severities), None)
        ids = frozenset(item.get('uuid', '') for item in items)
        excluded = bool(ids) and '' not in ids and any((key, ids) in self.excluded for key in keys)
        return {'severity': severity, 'off': 'excluded' if excluded else 'ignored' if severity == 'ignore' else None}
