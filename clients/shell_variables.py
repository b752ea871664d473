"""The variables of clients/shell.py: names for texts that stand in statements and in the words of commands, as psql has them."""
import re

import guarddb
from shell_place import REFUSED, Fault

NAME = re.compile(r'\w+')
# A text, a quoted name or a comment, in which nothing is put; a cast, which is none; and a variable, as it is, as a text, or as a name.
USED = re.compile(rf"""(?P<kept>::)|:(?P<plain>\w+)|:'(?P<text>\w+)'|:"(?P<name>\w+)"|{guarddb.QUOTED}""")
# What psql itself obeys, and this shell does not. It stops at the first refusal of a script, as ON_ERROR_STOP wants it.
OF_PSQL = set('''
    AUTOCOMMIT COMP_KEYWORD_CASE ECHO ECHO_HIDDEN FETCH_COUNT HIDE_TABLEAM HISTCONTROL HISTFILE HISTSIZE IGNOREEOF ON_ERROR_ROLLBACK
    ON_ERROR_STOP PROMPT1 PROMPT2 PROMPT3 QUIET SHOW_CONTEXT SINGLELINE SINGLESTEP VERBOSITY
'''.split())
IS_SO = {'ON_ERROR_STOP': ('on', '1', 'true', 'yes'), 'AUTOCOMMIT': ('on', '1', 'true', 'yes')}


class Variables(dict):
    """Texts by name."""

    def put(self, name, *words):
        """Sets a variable to the words, one behind the other."""
        value = ''.join(words)
        if not NAME.fullmatch(name):
            raise Fault(REFUSED, f'A variable has letters, digits and _ in its name, not {name}.')
        if name in OF_PSQL and value.lower() not in IS_SO.get(name, ()):
            raise Fault(REFUSED, f'{name} is a setting of psql, which this shell does not have.')
        self[name] = value

    def filled(self, text):
        """A text with the values of the variables that it uses. What names none stays as it is."""
        return USED.sub(self.value, text) if ':' in text and self else text

    def value(self, found):
        name = found['plain'] or found['text'] or found['name']
        if name not in self:
            return found[0]
        value = self[name]
        try:
            return value if found['plain'] else guarddb.literal(value) if found['text'] else guarddb.quoted_name(value)
        except ValueError as fault:
            raise Fault(REFUSED, f'{found[0]} cannot stand in a statement: {fault}.') from None

    def lines(self):
        """A line for each variable."""
        return [f'{name} = {guarddb.literal(self[name]).strip()}' for name in sorted(self)]
