#!/usr/bin/env python3
"""Turns the LLVM module of the library, as the kit makes it for x86-64, into one for WebAssembly with 64-bit memories.

    retarget.py MODULE.ll OUT.ll EXPORT..

The code stays as it is. What says for which machine it is changes: the data layout, the triple, the processor and the
probes of the stack; and each EXPORT is given its name outside. Whatever isn't known here to mean the same on both
machines ends this with a word on it, and nothing is written.
"""
import re
import sys

LAYOUTS = {
    'e-m:e-p270:32:32-p271:32:32-p272:64:64-i64:64-i128:128-f80:128-n8:16:32:64-S128':
        'e-m:e-p:64:64-p10:8:8-p20:8:8-i64:64-i128:128-n32:64-S128-ni:1:10:20'}
TRIPLES = {'x86_64-unknown-linux-gnu': 'wasm64-unknown-unknown'}

# what a function may be marked with, and what of it is left out
KEPT = {'nounwind', 'noinline', 'cold', 'alwaysinline', 'noreturn', 'inlinehint', 'optnone', 'minsize', 'optsize',
        'norecurse', 'willreturn', 'mustprogress', 'nocallback', 'nofree', 'nosync', 'speculatable',
        'nocreateundeforpoison', 'nobuiltin'}
KEPT_WORDS = {'rattle-sig'}
LEFT_OUT = {'probe-stack', 'stack-probe-size', 'target-cpu'}

# what the module may call that isn't in it: the heap, which heap.c is, and what LLVM knows on each machine
HEAP = {'rattle_alloc', 'rattle_realloc', 'rattle_dealloc'}
INTRINSICS = {'llvm.memset', 'llvm.memmove', 'llvm.memcpy', 'llvm.cttz', 'llvm.ctlz', 'llvm.ctpop', 'llvm.trap',
              'llvm.bswap', 'llvm.fshl', 'llvm.fshr', 'llvm.umul', 'llvm.smul', 'llvm.uadd', 'llvm.usub', 'llvm.umin',
              'llvm.umax', 'llvm.smin', 'llvm.smax', 'llvm.abs', 'llvm.assume', 'llvm.expect'}

# words that mean something on one machine alone
FOREIGN = (' asm ', 'x86_fp80', 'byval(', 'sret(', 'inalloca', 'thread_local', 'va_arg', 'musttail')


class Unknown(Exception):
    """The module has something that isn't known to mean the same."""


def replaced_line(text, start, known):
    """The text, where the value of the one line with this start is replaced by what is known for it."""
    found = re.findall(rf'^{start} = "([^"]*)"$', text, re.M)
    if len(found) != 1 or found[0] not in known:
        raise Unknown(f'{start}: {found}')
    return text.replace(f'{start} = "{found[0]}"', f'{start} = "{known[found[0]]}"')


def kept_attributes(line):
    """A line of attributes without those that are for x86-64."""
    body = re.sub(r'memory\([^)]*\)|allocsize\([^)]*\)|allockind\("[^"]*"\)', '', line.partition('{')[2])
    for key in re.findall(r'"([^"]*)"="[^"]*"', body):
        if key not in KEPT_WORDS | LEFT_OUT:
            raise Unknown(f'the attribute {key}')
    for word in re.sub(r'"[^"]*"="[^"]*"', '', body).replace('}', ' ').split():
        if word not in KEPT:
            raise Unknown(f'the attribute {word}')
    return re.sub(rf' "(?:{"|".join(LEFT_OUT)})"="[^"]*"', '', line)


def judged_declarations(text):
    """Nothing, where all that the module declares is known."""
    for name in re.findall(r'^declare [^@\n]*@([A-Za-z0-9_.]+)\(', text, re.M):
        stem = '.'.join(name.split('.')[:2])
        if name not in HEAP and stem not in INTRINSICS:
            raise Unknown(f'a call of {name}')
    for word in FOREIGN:
        if word in text:
            raise Unknown(f'the word {word.strip()}')


def exported(text, name):
    """The text, where the function of this name is told by it outside."""
    found = re.findall(rf'^define [^@\n]*@{name}\([^\n]*\{{$', text, re.M)
    if len(found) != 1:
        raise Unknown(f'{len(found)} functions {name}')
    return text.replace(found[0], f'{found[0][:-1]}"wasm-export-name"="{name}" {{')


def retargeted(text, names):
    """The module for WebAssembly."""
    judged_declarations(text)
    text = replaced_line(text, 'target datalayout', LAYOUTS)
    text = replaced_line(text, 'target triple', TRIPLES)
    text = re.sub(r'^attributes #\d+ = \{.*\}$', lambda line: kept_attributes(line[0]), text, flags=re.M)
    for name in names:
        text = exported(text, name)
    return text


def main():
    with open(sys.argv[1], encoding='utf-8') as file:
        text = file.read()
    try:
        text = retargeted(text, sys.argv[3:])
    except Unknown as unknown:
        print(f'retarget.py: the module has what is not known to mean the same: {unknown}', file=sys.stderr)
        return 1
    with open(sys.argv[2], 'w', encoding='utf-8') as file:
        file.write(text)
    return 0


if __name__ == '__main__':
    sys.exit(main())
