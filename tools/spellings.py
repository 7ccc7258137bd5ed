"""Which lines a schedule and a transcript may have, as docs/FORMATS.md spells them.

The tables below have forms: `up ID` stands for `up 2`. The words in capitals are those of WORDS, and any other word of
a form is itself. Whether a number is within its range isn't looked at, but for how many digits it has.
"""
import re

NUMBER = '(?:0|[1-9][0-9]{0,9})'
SIGNED = '(?:0|-?[1-9][0-9]{0,11})'
POINT = ' '.join([SIGNED] * 3)
FAULT = f'(?:short|extra|version|kind|value) {NUMBER}'

WORDS = {
    'N': NUMBER,
    'ID': '[1-9][0-9]{0,9}',
    'ADDR': r'[0-9]{1,3}(?:\.[0-9]{1,3}){3}:[0-9]{1,5}',
    'POINT': POINT,
    'POINTS': ' '.join([POINT] * 3),
    'MODE': '(?:partial|full)',
    'HEX': '(?:-|(?:[0-9a-f]{2})+)',
    'REGIONS': f'{NUMBER}(?:,{NUMBER})*',
    'TREE': f'{NUMBER}(?: {NUMBER}>{NUMBER})*',
    'DIGEST': '[0-9a-f]{64}',
    'COUNTS': ' '.join([NUMBER] * 4),
    'CHANGE': '(?:join|move|leave)',
    'REASON': '(?:retired|present|full|absent|leader|stale)',
    'FAULT': FAULT,
    'UNFIT': f'(?:(?:region|heads|part|roll) {NUMBER}|piece (?:length|padding)|bytes {FAULT}|name|size|absent)',
    'KIND': '(?:word|count|number|point|address|bytes)',
}


def pattern(forms):
    """What fits one of these forms, of which a bar stands between two."""
    spelled = [re.sub('[A-Z]+', lambda word: WORDS[word[0]], form.strip()) for form in forms.split('|')]
    return re.compile('|'.join(spelled))


def patterns(table):
    return {word: pattern(forms) for word, forms in table.items()}


LINES = patterns({
    'lead': 'lead ID ADDR POINT',
    'boot': 'boot ID ADDR POINT MODE',
    'home': 'home ID ADDR',
    'join': 'join ID',
    'leave': 'leave ID',
    'flush': 'flush ID',
    'move': 'move ID POINT',
    'close': 'close',
    'ask': 'ask ID ID',
    'need': 'need ID ID N',
    'deliver': 'deliver ID',
    'lose': 'lose ID',
    'settle': 'settle ID',
    'packet': 'packet ID HEX',
    'noise': 'noise ID N',
    'crash': 'crash ID',
    'restart': 'restart ID',
    'tear': 'tear ID N',
    'print': 'print ID',
})

CALL = 'no node | down | joining | leader | departed'
DELIVERY = '''noted COUNTS | jumped N | answered | silent | held | advanced N | passed | already | stale N N
    | early N N | departed | idle | bad FAULT | not mine ID | unfit UNFIT | down | stopped log'''

# Behind the block of a `print` and the deliveries of a `settle`, which aren't among these.
ANSWERS = patterns({
    'lead': 'taken | second leader | up ID',
    'boot': 'taken | no leader | up ID',
    'home': 'not here | taken | home ID',
    'join': 'no node | down | member | departed | told',
    'leave': f'{CALL} | told',
    'flush': f'{CALL} | nothing | flushed ID',
    'move': f'{CALL} | spent | stopped log | moved ID',
    'close': 'no leader | down | spent | stopped log | accepted ID CHANGE | refused ID CHANGE REASON | closed ID',
    'ask': 'no node | down | leader | departed | unknown ID | told',
    'need': f'{CALL} | unknown ID | spent | told',
    'deliver': f'not here | no packet | {DELIVERY}',
    'lose': 'not here | no packet | lost',
    'settle': 'not here | settled N',
    'packet': f'not here | no node | {DELIVERY}',
    'noise': 'not here | no node',
    'crash': 'no node | down | down ID',
    'restart': 'no node | up | joining | member N | leader N | departed',
    'tear': 'no node | armed N',
    'print': 'no node | down | joining | departed',
})

# A member that is the one to report to keeps its own change, and tells what this change met.
KEPT = pattern('noted COUNTS')
END = pattern('fault ID KIND')

BLOCK = pattern('''epoch N | region N ID POINTS | global N ID ADDR POINT | member N ID ADDR POINT | inter N TREE
    | local N N TREE | digest DIGEST | end''')

PACKET = pattern('''#ID ID>ID report ID | #ID ID>ID piece ID N N | #ID ID>ID need ID N | #ID ID>ID slice ID N
    | #ID ID>ID ask N | #ID ID>ID snap N REGIONS | #ID ID>ID bye N''')
PACKET_OF_NODE = pattern('#ID ADDR HEX')


def is_known(text):
    """Whether this is the answer to some line, or a line of a block."""
    return any(answer.fullmatch(text) for answer in [*ANSWERS.values(), KEPT, BLOCK])
