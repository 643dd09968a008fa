#!/usr/bin/env python3
"""Makes a copy of a Go installation whose runtime has a tracer's hooks: hooks.py commands|fields GOROOT COPY.

Only src/runtime is copied; all else are links. Each hook is inserted at one line of one function. The line is found by
the words of its anchor, which must be there exactly once. No line of Go's is changed or removed."""
import os
import re
import shutil
import sys

VERSION = 'go1.19.8'


def planted(fault, then):
    """A planted fault: the text of a hook that does something else, if the fault is this one."""
    return f'if NmgcFault == {fault} {{ {then} }}'


# The assembly writes its pair the other way round than the rest of the runtime: so it is written again.
OLD_FIRST = 'MOVQ R13, -16(R12)\n\tMOVQ AX, -8(R12)'

# File, function, 'after' or 'before', anchor, hook. An empty anchor is the head of the function.
COMMAND_HOOKS = [
    ('asm_amd64.s', 'gcWriteBarrier', 'after', 'R13, -8(R12)', OLD_FIRST),
    ('mwbbuf.go', 'wbBufFlush1', 'after', 'gcw := &_p_.gcw', 'nmgcFlush(ptrs)'),
    ('mwbbuf.go', 'wbBufFlush1', 'after', 'mbits.setMarked', 'nmgcGreyed(obj)'),
    ('mgc.go', 'gcStart', 'after', 'setGCPhase(_GCmark)', 'NmgcLog(nmgcMark, 0, 0, 0)'),
    ('mgc.go', 'gcMarkTermination', 'after', 'gcMark(startTime)', 'nmgcMarked()'),
    ('mgc.go', 'gcMarkDone', 'before', 'wbBufFlush1(_p_)', planted('nmgcBuffersLost', '_p_.wbBuf.reset()')),
    ('mgc.go', 'gcMarkDone', 'before', 'wbBufFlush1(p)', planted('nmgcBuffersLost', 'p.wbBuf.reset()')),
    ('mgcmark.go', 'scanstack', 'after', 'state.stack = gp.stack',
     'NmgcLog(nmgcScan, uint64(gp.goid), 0, 0)'),
    ('mgcmark.go', 'scanblock', 'after', 'findObject(p, b, i)', 'if stk != nil { nmgcName(nmgcFound, obj) }'),
    ('mgcmark.go', 'scanConservative', 'after', 'obj := span.base()', 'if state != nil { nmgcName(nmgcFound, obj) }'),
    ('mgcmark.go', 'gcmarknewobject', 'after', '', planted('nmgcNewUnmarked && size == 208', 'return')),
    ('mgcsweep.go', 'sweep', 'after', 'spc := s.spanclass', 'nmgcSweep(s)'),
    ('mbitmap.go', 'bulkBarrierPreWrite', 'after', '', planted('nmgcNoBulk', 'return')),
    ('atomic_pointer.go', 'atomicwb', 'after', '', planted('nmgcNoAtomic', 'return')),
    ('chan.go', 'sendDirect', 'after', 'dst := sg.elem', planted('nmgcNoChannel', 'memmove(dst, src, t.size); return')),
]

# The hooks for a program as it is. Each store of the compiler's barrier goes its slow way, which has the field's address.
FIELD_HOOKS = [
    ('asm_amd64.s', 'gcWriteBarrier', 'after', 'R13, -8(R12)', f'{OLD_FIRST}\n\tJMP flush'),
    ('mwbbuf.go', 'wbBufFlush', 'before', 'systemstack(func()', 'if nmgcBarrier(dst, src) { return }'),
    ('mwbbuf.go', 'wbBufFlush1', 'after', 'gcw := &_p_.gcw', 'nmgcFlush(ptrs)'),
    ('mbitmap.go', 'bulkBarrierPreWrite', 'before', 's := spanOf(dst)', 'nmgcBulk(dst, src, size)'),
    ('mbitmap.go', 'bulkBarrierPreWriteSrcOnly', 'before', 'buf := &getg()', 'nmgcBulk(dst, src, size)'),
    ('chan.go', 'sendDirect', 'after', 'dst := sg.elem', 'nmgcSend(t, dst, src, getg().goid, sg.g.goid)'),
    ('chan.go', 'recvDirect', 'after', 'src := sg.elem', 'nmgcSend(t, dst, src, sg.g.goid, getg().goid)'),
    ('atomic_pointer.go', 'atomicstorep', 'before', 'atomic.StorepNoWB', 'nmgcAtomic((*unsafe.Pointer)(ptr), new)'),
    ('atomic_pointer.go', 'sync_atomic_StorePointer', 'before', 'sync_atomic_StoreUintptr(', 'nmgcAtomic(ptr, new)'),
    ('atomic_pointer.go', 'sync_atomic_SwapPointer', 'before', 'sync_atomic_SwapUintptr(', 'nmgcAtomic(ptr, new)'),
    ('atomic_pointer.go', 'sync_atomic_CompareAndSwapPointer', 'after', '',
     'if nmgcInCycle { return nmgcCompareAndSwap(ptr, old, new) }'),
    ('mgcmark.go', 'gcmarknewobject', 'after', '', 'nmgcNew(span, obj)'),
    ('proc.go', 'newproc1', 'after', 'newg.goid = int64', 'nmgcGoroutine(nmgcBorn, newg.goid, uintptr(unsafe.Pointer(fn)))'),
    ('proc.go', 'goexit0', 'after', 'dropg()', 'nmgcGoroutine(nmgcGone, gp.goid, 0)'),
    ('mgc.go', 'gcStart', 'after', 'setGCPhase(_GCmark)', 'nmgcMarkBegins()'),
    ('mgc.go', 'gcMarkTermination', 'after', 'gcMark(startTime)', 'nmgcMarked()'),
    ('mgcmark.go', 'gcMarkTinyAllocs', 'before', 'gcw := &p.gcw', 'nmgcRemembered(c.tiny)'),
    ('mgcmark.go', 'markrootSpans', 'before', 'scanobject(p, gcw)',
     'nmgcOpened(p); nmgcRemembered(uintptr(unsafe.Pointer(spf.fn)))'),
    ('mheap.go', 'addfinalizer', 'before', 'scanobject(base, gcw)',
     'nmgcOpened(base); nmgcRemembered(uintptr(unsafe.Pointer(s.fn)))'),
    ('mgcmark.go', 'scanobject', 'after', 'findObject(obj, b, i)', 'nmgcRead(b, i, obj)'),
    ('mgcmark.go', 'scanblock', 'after', 'findObject(p, b, i)',
     'if stk != nil { nmgcRecord(nmgcHeld, uintptr(unsafe.Pointer(stk)), obj, 0) }'),
    ('mgcmark.go', 'scanConservative', 'after', 'obj := span.base()',
     'if state != nil { nmgcRecord(nmgcHeld, uintptr(unsafe.Pointer(state)), obj, 0) }'),
    ('mgcmark.go', 'scanstack', 'before', 'return int64(scannedSize)',
     'nmgcRecord(nmgcScan, uintptr(unsafe.Pointer(&state)), uintptr(gp.goid), 0)'),
    ('mgcsweep.go', 'sweep', 'before', 'if hadSpecials && s.specials == nil', 'nmgcSweep(s)'),
]

TRACERS = {'commands': ('nmgc_log.go', COMMAND_HOOKS), 'fields': ('nmgc_fields.go', FIELD_HOOKS)}


def copy_of(goroot, copy):
    """Makes the copy, and returns the folder of its runtime."""
    os.makedirs(f'{copy}/src')
    for name in os.listdir(goroot):
        if name != 'src':
            os.symlink(f'{goroot}/{name}', f'{copy}/{name}')
    for name in os.listdir(f'{goroot}/src'):
        if name != 'runtime':
            os.symlink(f'{goroot}/src/{name}', f'{copy}/src/{name}')
    shutil.copytree(f'{goroot}/src/runtime', f'{copy}/src/runtime')
    return f'{copy}/src/runtime'


def place_of(lines, file, function, anchor):
    """The index of the one line of a function that has the anchor."""
    head = re.compile(rf'(func (\(.*?\) )?{function}\(|TEXT runtime·{function}<)')
    heads = [i for i, line in enumerate(lines) if head.match(line)]
    if len(heads) != 1:
        sys.exit(f'{file}: {len(heads)} functions {function}')
    begin = heads[0]
    if not anchor:
        return begin
    is_end = (lambda line: line.startswith('TEXT')) if file.endswith('.s') else (lambda line: line.startswith('}'))
    end = next(i for i in range(begin + 1, len(lines)) if is_end(lines[i]))
    found = [i for i in range(begin, end) if anchor in lines[i]]
    if len(found) != 1:
        sys.exit(f'{file}: {len(found)} lines of {function} have {anchor}')
    return found[0]


def insert(runtime, hook):
    """Inserts one hook into the copy."""
    file, function, where, anchor, text = hook
    path = f'{runtime}/{file}'
    os.chmod(path, 0o644)
    with open(path, encoding='utf-8') as source:
        lines = source.read().split('\n')
    place = place_of(lines, file, function, anchor) + (where == 'after')
    lines.insert(place, '\t' + text)
    with open(path, 'w', encoding='utf-8') as source:
        source.write('\n'.join(lines))


def main():
    file, hooks = TRACERS[sys.argv[1]]
    goroot, copy = map(os.path.realpath, sys.argv[2:])
    with open(f'{goroot}/VERSION', encoding='utf-8') as version:
        if version.read().split()[0] != VERSION:
            sys.exit(f'{goroot} is not {VERSION}: its hooks have other places')
    runtime = copy_of(goroot, copy)
    for hook in hooks:
        insert(runtime, hook)
    shutil.copy(f'{os.path.dirname(os.path.abspath(__file__))}/{file}', runtime)


if __name__ == '__main__':
    main()
