"""The errors that a listing names (docs/LANGUAGE.md, "Source errors", "Compile errors", "Execution
errors"; docs/SAVES.md, "Restarting").
"""
from enum import IntEnum

Source = IntEnum('Source', {
    'BadByte': 1, 'OpenQuote': 2, 'OpenText': 3, 'LongLabel': 4, 'LongLine': 5, 'UnknownControl': 6, 'TooLong': 9, 'Expected': 11, 'Depth': 12,
    'Number': 13, 'NotInProfile': 14, 'TooManyLabels': 15, 'NoColumn': 21, 'TwoColumns': 22, 'RepeatedEntry': 23, 'BadRow': 24, 'NoHeading': 25,
    'SaveShape': 41, 'SaveTooLong': 42, 'SaveSolver': 43})

Compile = IntEnum('Compile', {
    'UnknownName': 1, 'Redeclared': 2, 'WrongKind': 3, 'WrongArity': 4, 'DomainOfSet': 5, 'DomainOfLabel': 6, 'Uncontrolled': 7,
    'ControlledTwice': 8, 'NotOrdered': 9, 'DynamicDomain': 10, 'Nonlinear': 11, 'Discrete': 12, 'ModelType': 13, 'NotDefined': 14,
    'DefinedTwice': 15, 'Objective': 16, 'UnknownSolver': 17, 'OptionRange': 18, 'Endogenous': 19, 'Function': 20, 'DataFault': 21,
    'Restart': 22})

Execution = IntEnum('Execution', {
    'Limit': 1, 'Divide': 2, 'LagNotWhole': 3, 'EmptyExtreme': 4, 'Exponent': 5, 'DomainSize': 7, 'TooManyRows': 8, 'TooManyColumns': 9,
    'NoSolver': 10, 'Aborted': 11, 'Undefined': 12})
