"""Words of calls of which most are no command, and files that they can be tried on. A bar is between words."""
ODD_WORDS_FILES = {
    'R': b'r = elect;', 'F': b'# NUMBER ALTERNATIVES: 3\n4: 1,2,3\n', 'M': b'F\n',
    'C': b'virage-certificate 1\nterm elect\nproperty el\nderivation el-leaf\n'}


def behind(command, *rests):
    return [f'{command}|{rest}' for rest in rests]


def repeated(word, times, comma=','):
    return comma.join([word] * times)


FORMS = [
    '', '--help', '--version', '-h', 'help',
    'count', 'count|R', 'count|R|F|x', 'Count|R|F', 'count |R|F', 'count||F', 'count|R|', 'report|R', 'report|R|F',
    'prove|R',
    *behind('prove|R', 'el', 'EL', 'defers', 'defers(0)', 'defers(01)', 'defers(1000000)', 'defers(1000001)',
            'defers( 1)', 'ne(1)', 'neut', 'disj', '', 'el,ne', 'elim(1)|x'),
    'check', *behind('check', 'C', 'C|C', 'X'),
    'synth|3', 'synth|0|el', 'synth|16|el', 'synth|15|ea',
    *behind('synth|3', '', 'el,', ',el', 'el,el', 'foo'), 'synth|+3|el', 'synth||el', 'synth|3 |el',
    *behind('synth|3|el', '', 'elect;', 'elect,defer'), *behind('synth|2|el', 'elect;elect', 'pass(1,[])'),
    *behind('synth|2|ne', 'pass(1,[2,1])', 'pass(1, [2])', 'pass(01)', 'pass(0)', 'pass(1,[1025])', 'pass(1,[1,1])',
            'rev(elect)', 'max(elect)', 'max(borda) ', 'borda'),
    *behind('synth|1', repeated('el', 32), repeated('el', 33), 'el|' + repeated('elect', 64, ';'),
            'el|' + repeated('elect', 65, ';'), 'el|elect|x', 'defers(7)|pass(7,[3]);elect'),
    'listing', *behind('listing', 'R', 'R|R'),
    *behind('drill', '0|1|3', '0|0|3', '0|1|0', '0|1|129', '0|1|128', '18446744073709551615|1|2',
            '18446744073709551616|1|2', '-1|1|2', '0|100001|2', '0|1', '0|1|2|3', 'x|1|2', '\u0661|1|2'),
    *behind('position', '1|max|F', '1|Max|F', '0,1|max|F', '|max|F', '1,|max|F', '01|max|F', '00|max|F', '0|max|F',
            '1000000|max|F', '1000001|max|F', '2, 1|max|F', repeated('3', 1024) + '|min|F',
            repeated('3', 1025) + '|min|F', '1|max', '1|max|F|F'),
    *behind('refute|R', 'el|F', 'mono|F', 'el|F|F|1', 'mono|F|F|1', 'mono|F|F|0', 'mono|F|F|1024', 'mono|F|F|1025',
            'mono|F|F|x', 'mono|F|F', 'neut|F', 'neut|F|F|1', 'defers(2)|F', 'elim(3)|F'),
    *behind('find|R', 'el|2|1', 'el|0|1', 'el|7|1', 'el|6|0', 'ne|6|1000', 'ne|6|1001', 'el|2|-1', 'neut|2|1', 'mono|2',
            'mono|2|1|1', 'mono|2|1|1|1', 'mono|2|1|0|1', 'mono|2|1|2|1', 'mono|2|1|3|10000', 'mono|1|1|3|10001',
            'mono|02|01', 'EL|2|1', 'el|2|1|1|1|1'),
    *behind('differ|R', 'R|2|1', 'R|0|1', 'R|7|1', 'R|6|1000', 'R|6|1001', 'R|2', 'X|2|1', 'R|2|1|1'),
    'simplify', *behind('simplify', 'R', 'R|R'), *behind('batch', 'R|M', 'R', 'M|R', 'R|M|M'),
    'count|R\udcff|F', '\udcff', 'count|R|.', 'count|.|F', 'check|.']

ODD_WORDS = [[]] + [form.split('|') for form in FORMS]
