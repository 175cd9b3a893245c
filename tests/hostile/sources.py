"""The runs that memory and system calls are taken from: models, a source for each error that a
source alone can have, the ways a solve ends, words, saves.
"""
import os

from hostile import FILE, NO_MEMORY, TOP, Run, read

LONG = 64                        # one byte more than a name or a label may have
LINE = 32_769                    # one byte more than a line may have
SOURCE = 1_048_577               # one byte more than a source may have

SETS = '''set i /1*4/, s(i); positive variable x(i); variable z; equations e(i), obj; e(i)$s(i).. x(i) =l= 1;
obj.. z =e= sum(s, x(s)); model m /all/; s("1") = yes; s("2") = yes; solve m using lp maximizing z; display s, x.l;
s("1") = no; solve m using lp maximizing z; s(i) = no; solve m using lp maximizing z; s(i) = yes$(ord(i) > 2); display s;'''

SOLVES = {
    'Infeasible': 'positive variable x; variable z; equations o, c; o.. z - x =e= 0; c.. x =l= -1;',
    'Unbounded': 'positive variable x; variable z; equations o; o.. z + x =e= 0;',
    'Interrupted': 'option iterlim = 1; positive variable x; variable z; equations o, c; o.. z - x =e= 0; c.. x =g= 2;',
    'Refused': 'variable x, z; equations o; o.. z - 2*x =e= 0; x.lo = 2**126; x.up = 2**126;',
}

SOURCE_ERRORS = {
    '1 BadByte': 'scalar a; a = ?;',
    '2 OpenQuote': 'scalar a; display "a;',
    '3 OpenText': '$ontext\nnever closed',
    '4 LongLabel': 'set i /%s/;' % ('k' * LONG),
    '5 LongLine': '*' * LINE,
    '6 UnknownControl': '$include b.gms',
    '9 TooLong': ' ' * SOURCE,
    '11 Expected': 'scalar a; a =',
    '12 Depth': 'scalar a; a = %s1' % ('(' * 101),
    '13 Number': 'scalar a /1e39/;',
    '14 NotInProfile': 'scalar a; a = eps;',
    '15 TooManyLabels': 'set i /x1*x65536, y/;',
    '21 NoColumn': 'table p(*,*)\n   x\na   1     2;',
    '22 TwoColumns': 'table p(*,*)\n   x y\na  1111;',
    '23 RepeatedEntry': 'table p(*,*)\n   x\na  1\na  2;',
    '24 BadRow': 'table p(*,*)\n   x\na  b;',
    '25 NoHeading': 'table p(*,*)\n;',
}

FRONT = 'set i /a,b/, s(i); alias(i,k); parameter p(i); variables x, z; equation e;\n'
COMPILE_ERRORS = {
    '1 UnknownName': 'q = 1;',
    '2 Redeclared': 'set i;',
    '3 WrongKind': 'p("a") = yes;',
    '4 WrongArity': 'p = 1;',
    '5 DomainOfSet': 'set j /a/; p(j) = 1;',
    '6 DomainOfLabel': 'p("c") = 1;',
    '7 Uncontrolled': 'p("a") = p(i);',
    '8 ControlledTwice': 'p(i) = sum(i, 1);',
    '9 NotOrdered': 'set j /b,a/; parameter q(j); q(j) = ord(j);',
    '10 DynamicDomain': 'parameter q(s); s(i) = yes;',
    '11 Nonlinear': 'e.. x*z =e= 1;',
    '12 Discrete': 'binary variable y;',
    '13 ModelType': 'e.. x =e= 1; model m /all/; solve m using nlp minimizing z;',
    '14 NotDefined': 'model m /all/; solve m using lp minimizing z;',
    '15 DefinedTwice': 'e.. x =e= 1; e.. x =e= 1;',
    '16 Objective': 'positive variable y; e.. x =e= 1; model m /all/; solve m using lp minimizing y;',
    '17 UnknownSolver': 'option lp = cplex;',
    '18 OptionRange': 'option decimals = 9;',
    '19 Endogenous': 'p("a") = x;',
    '20 Function': 'p("a") = sqrt(2);',
    '21 DataFault': 'set j /j2*j1/;',
}

EXECUTION_ERRORS = {
    '1 Limit': 'scalar a; a = 2**127;',
    '2 Divide': 'scalar a; a = 1/a;',
    '3 LagNotWhole': 'set i /a,b/; parameter p(i); p(i) = p(i+(1/2));',
    '4 EmptyExtreme': 'set i /a,b/; scalar a; a = smax(i$0, 1);',
    '5 Exponent': 'scalar a; a = 1**1025;',
    '7 DomainSize': 'set i /1*4097/; alias(i,k); scalar a; a = sum((i,k)$0, 1);',
    '8 TooManyRows': 'set i /1*1501/; variables x(i), z; equation e(i); e(i).. x(i) + z =l= 1; model m /all/; solve m using lp minimizing z;',
    '9 TooManyColumns': 'set i /1*1500/; variables x(i), z; equation e; e.. z =e= sum(i, x(i)); model m /all/; solve m using lp minimizing z;',
    '11 Aborted': 'scalar a /5/; abort$(a > 4) "too great", a;',
    '12 Undefined': 'scalar a; a = inf - inf;',
}


def run(name, source, *rest):
    return Run(name, {FILE: source.encode()}, *rest)


def models():
    """The first row, the transport model, dynamic sets, and an example each with loops, tables, two
    solvers and an empty source.
    """
    yield run('empty', '')
    yield run('first_row', 'scalar a /1.5/; a = a/3; display a;', 0, b'SCALAR a = 0.500')
    yield run('dynamic_sets', SETS, 0, b'END status 0 solves 3')
    for name in ('transport', 'both_solvers', 'report', 'stock'):
        yield Run(name, {FILE: read(os.path.join(TOP, 'examples', name + '.gms'))})


def solves():
    """The transport model with ranges, and a solve with each end but an optimum."""
    transport = {FILE: read(os.path.join(TOP, 'examples', 'transport.gms'))}
    yield Run('ranges', transport, 0, b'ranges of solve 1', ('--ranges', FILE))
    for end, source in SOLVES.items():
        solve = 'model m /all/; solve m using lp minimizing z; display z.l;'
        yield run(end, '%s %s' % (source, solve), 0, b'PROOF %s' % end.encode())


def errors():
    """A source for each error of a source, of a program and of its execution."""
    for name, source in SOURCE_ERRORS.items():
        yield run(name.replace(' ', '_'), source, 2, b'*** Source error %s at line' % name.encode())
    for name, source in COMPILE_ERRORS.items():
        yield run(name.replace(' ', '_'), FRONT + source, 2, b'*** Compile error %s at line' % name.encode())
    for name, source in EXECUTION_ERRORS.items():
        yield run(name.replace(' ', '_'), source, 3, b'*** Execution error %s at line' % name.encode())


def words():
    """Words that are refused, a file that is not there, a generated model."""
    yield Run('no_words', {}, 1, b'usage: ', ())
    yield Run('no_file', {}, 4, b'cannot read b.gms', ('b.gms',))
    yield Run('generated', {}, 0, b'generated 2 by 2', ('--generate', '2'))


def saves(program, outcome):
    """A save, and its restart, where the program knows these words."""
    save = Run('save', {FILE: b'set i /a,b/; parameter p(i) /a 1.5/; p("b") = 2; display p;'}, 0, b'', ('--save', 'a.sav', FILE))
    saved = outcome(program, save)
    if saved.status == 1:
        print('the program knows no --save, so no save and no restart was tried')
        return
    yield save
    files = {'a.sav': saved.files['a.sav'], 'b.gms': b'p("a") = p("a") + p("b"); display p;'}
    yield Run('restart', files, 0, b'3.500', ('--restart', 'a.sav', 'b.gms'))
    broken = {**files, 'a.sav': files['a.sav'][:-2]}
    yield Run('restart_of_no_save', broken, 2, b'41 SaveShape', ('--restart', 'a.sav', 'b.gms'))


def large_lists():
    """Sources of at most a megabyte whose lists request gigabytes: by ranges, and by lists in
    parentheses of sets and of parameters.
    """
    element = '.'.join(['(a,b,c,d)'] * 10)
    for name, form, count in (('ranges', 'set i%d /x1*x65536/;', 40_000),
                              ('sets', 'set s%%d(%s) /%s/;' % (','.join('*' * 10), element), 7_500),
                              ('parameters', 'parameter p%%d(%s) /%s 1/;' % (','.join('*' * 10), element), 7_000)):
        yield run('large_lists_of_' + name, '\n'.join(form % k for k in range(count)), NO_MEMORY)


def all_runs(program, outcome, only):
    """All runs whose name holds a text."""
    for kind in (models(), solves(), errors(), words(), saves(program, outcome)):
        yield from (it for it in kind if only in it.name)
