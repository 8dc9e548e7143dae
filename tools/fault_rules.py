"""When a unit has a fault of each kind: the rule of the kind row by row, in the standard's terms.

RULES has for each kind a head and rows. A row says when there is the fault, where it stands, the sections of C99, and
which definitions find it there, each as `crate::name`. What is this language's own, and not the standard's, is said so.
tools/fault_pages.py puts them at the head of the pages in docs/faults/, and refuses a page on which the rows do not
name exactly the definitions that find the kind.

NOTED has for some kinds the definitions by which something is noted on the way that those go by, which names alone do
not lead to.
"""

NAME = "the name"
DECLARED = "what is declared, or the first token of the type name"
VALUE = "the value"
EXPRESSION = "the expression"
OPERAND = "the operand"

RULES = {
    "MissingMain": (
        "A program starts with the function `main`. Here its type is `int (void)` alone; the form with two "
        "parameters is left out. A definition counts whatever other fault it has.",
        [
            ("no function `main` of type `int (void)` has a body in the unit", "the length of the text",
             "5.1.2.2.1 p1", ["c_typing_units::main_missed"]),
        ],
    ),
    "UnknownName": (
        "An identifier is an expression only where a declaration of it is in scope.",
        [
            ("an identifier stands as an operand, and no declaration of it is in scope", NAME, "6.2.1, 6.5.1 p2",
             ["c_typing_judgements::name_of"]),
            ("an identifier is called, and no declaration of it is in scope (C99 has no implicit declarations)",
             NAME, "6.5.1 p2, 6.5.2.2 p1", ["c_typing_judgements::call_by_meaning"]),
            ("a name stands for a type, and no declaration of it is in scope; the parser takes a name for a type's "
             "only behind its `typedef`", DECLARED, "6.7.2, 6.7.7", ["c_typing_judgements::typedef_type"]),
        ],
    ),
    "Redeclared": (
        "In one scope an identifier is declared again only as the same thing with the same type, and what has a "
        "value, a body or a content gets it once. Tags, members and other names are apart (6.2.3), and all tags "
        "are of file scope here.",
        [
            ("a name of file scope is declared again as another kind of thing (object, function, typedef name, "
             "enumeration constant) or with another type; an object gets a second initialiser, a function a second "
             "body; a built-in function gets a body", "the later name", "6.7 p3, p4; 6.9 p3, p5; 7.1.3",
             ["c_typing_unit_names::redeclare"]),
            ("`main` is declared `static`, as an object or a function of file scope (this language's own rule: the "
             "program starts with it, so it is no name of one unit alone)", NAME, "5.1.2.2.1, 6.2.2 p3",
             ["c_typing_declarations::main_checked"]),
            ("an enumeration constant has the name of another constant or of anything else that is in scope there",
             "its name", "6.7 p3, 6.7.2.2", ["c_typing_struct_bodies::constant_declared"]),
            ("two parameters in one list have the same name, in a declaration that is no definition",
             "the later name", "6.2.1 p4, 6.7 p3", ["c_typing_judgements::named_parameter"]),
            ("two locals or parameters of one scope have the same name, in the definition of a function; its "
             "parameters and the outermost block are one scope", "the later name", "6.2.1 p4, 6.7 p3",
             ["c_typing_statement_parts::local_named"]),
            ("the tag of an enumeration stands behind `struct`", "the tag", "6.7.2.3",
             ["c_typing_judgements::struct_tagged"]),
            ("the tag of a struct stands behind `enum`", "the tag", "6.7.2.3", ["c_typing_judgements::enum_tagged"]),
            ("a tag gets a second body behind `struct`, also within its first one", "the tag", "6.7.2.3 p1",
             ["c_typing_struct_bodies::no_body"]),
            ("a tag gets a second body behind `enum`", "the tag", "6.7.2.3 p1", ["c_typing_struct_bodies::tagged_body"]),
        ],
    ),
    "NotDefined": (
        "What an expression uses needs an external definition in the program, and the program is one unit here. "
        "Any occurrence in an expression is a use, also under `sizeof`. The built-in functions count as defined.",
        [
            ("a function that has no body in the unit, or an object that is declared `extern` alone and without an "
             "initialiser, is used; each use is a fault, so the first one in the text has the least place",
             "the name, where it is used", "6.9 p5", ["c_typing_units::use_fault"]),
        ],
    ),
    "BadType": (
        "The type that a declarator or a type name makes has to exist, to keep the limits, and to be one that what "
        "is declared may have. The limits are this language's own (5.2.4.1 leaves them to the compiler): a type "
        "has at most 67,108,864 bytes, and is at most 256 deep. Two more rules are its own: there are no pointers "
        "to functions, and no parameters or results of struct type.",
        [
            ("a pointer to a function, or to an array without a length", DECLARED, "6.7.5.1",
             ["c_typing_judgements::required_type"]),
            ("an array whose element is void, a function, an incomplete struct or an array without a length; of a "
             "length below 1; of a size above the limit", DECLARED, "6.7.5.2 p1", ["c_typing_judgements::required_type"]),
            ("a function whose result is an array, a function or a struct", DECLARED, "6.7.5.3 p1",
             ["c_typing_judgements::required_type"]),
            ("a parameter that is void, a function or a struct, where an array has become a pointer; or whose type "
             "is deeper than the limit", "the parameter's name, or its first token", "6.7.5.3 p4, p7",
             ["c_typing_judgements::within_depth"]),
            ("a type name, a typedef name or a function whose type is deeper than the limit", DECLARED,
             "5.2.4.1, 6.7.6", ["c_typing_judgements::type_named"]),
            ("a name stands for a type, and its first declaration is that of something else, so that the `typedef` of "
             "the same name is Redeclared", DECLARED, "6.7.2 p2, 6.7.7", ["c_typing_judgements::typedef_type"]),
            ("`struct` with neither a tag nor a body that was declared at this place; the parser makes no such "
             "tree", "the word `struct`", "6.7.2.1, 6.7.2.3 p6", ["c_typing_judgements::struct_at"]),
            ("a string literal whose array is larger than the limit", "the literal", "5.2.4.1, 6.4.5",
             ["c_typing_judgements::string_of"]),
            ("a member that is void, a function, an incomplete struct (as one within itself) or an array without a "
             "length, or whose type is deeper than the limit", "the member's name", "6.7.2.1 p2",
             ["c_typing_struct_bodies::no_member"]),
            ("a struct that is larger than the limit", "the tag, or the word `struct`", "5.2.4.1, 6.7.2.1",
             ["c_typing_struct_bodies::too_large"]),
            ("a local that is void, a function, an incomplete struct or an array without a length, or whose type "
             "is deeper than the limit", NAME, "6.7 p7", ["c_typing_statement_parts::no_object_type"]),
            ("an object at file scope of such a type; an array without a length may stand there where an "
             "initialiser gives it one", NAME, "6.7 p7, 6.9.2", ["c_typing_declarations::no_object_type"]),
            ("a body behind a declarator whose type is no function's", NAME, "6.9.1 p2",
             ["c_typing_declarations::function_type"]),
            ("a body behind a declarator that is no function's own, but has its type from a typedef name", NAME,
             "6.9.1 p2", ["c_typing_declarations::defined_type"]),
            ("a parameter without a name in the definition of a function", "the parameter's first token",
             "6.9.1 p5", ["c_typing_declarations::name_judged", "c_typing_statement_parts::nameless_local"]),
        ],
    ),
    "NotConstant": (
        "An integer constant is built of literals, enumeration constants, `sizeof`, casts to integers and the "
        "operators without effects, and it neither traps nor is undefined (6.6 p3, p6). At file scope an "
        "initialiser may also be a null pointer or an address constant (6.6 p7, p9): a pointer to an object of file "
        "scope, a text, or a part of these, by `&`, `*`, `[]`, `.`, `->`, casts and integer constants, each step "
        "within the object.",
        [
            ("the length of an array is no integer constant", "the length", "6.6 p6, 6.7.5.2 p1",
             ["c_typing_constants::length_of"]),
            ("the value given to an enumeration constant is no integer constant", "that expression", "6.7.2.2 p2",
             ["c_typing_constants::given_of"]),
            ("the value given to an enumeration constant is none of `int`", "that expression", "6.7.2.2 p2",
             ["c_typing_constants::enumeration_value"]),
            ("an enumeration constant without a value stands behind the greatest value of `int`", "its name",
             "6.7.2.2 p2, p3", ["c_typing_constants::next_of"]),
            ("the expression of a `case` is no integer constant", "that expression", "6.8.4.2 p3",
             ["c_typing_constants::label_value_of"]),
            ("the value of an initialiser at file scope is no constant of these kinds", VALUE,
             "6.6 p7, p9; 6.7.8 p4", ["c_typing_initial_values::initial_or_fault"]),
        ],
    ),
    "BadOperand": (
        "An operand has a type that its operator takes. Where a value is wanted, an array has become a pointer to "
        "its first element before its type is asked (6.3.2.1 p3). A pointer to an object is one to a complete "
        "object type.",
        [
            ("unary `+`, `-` or `~` of what is no integer", EXPRESSION, "6.5.3.3 p1", ["c_typing_rules::unary_of"]),
            ("`!` of what is no integer and no pointer", EXPRESSION, "6.5.3.3 p1", ["c_typing_rules::not_operation"]),
            ("`&&` or `||` with an operand that is no integer and no pointer", EXPRESSION, "6.5.13 p2, 6.5.14 p2",
             ["c_typing_rules::logical"]),
            ("a condition (of `if`, a loop or `?:`) that is no integer and no pointer", "the condition",
             "6.5.15 p2, 6.8.4.1 p1, 6.8.5 p2", ["c_typing_rules::condition"]),
            ("`*`, `/`, `%`, `&`, `^` or `|`, or `+` without a pointer to an object beside it, or `-` without one "
             "on its left, where an operand is no integer", EXPRESSION,
             "6.5.5 p2, 6.5.6 p2, p3, 6.5.10 p2, 6.5.11 p2, 6.5.12 p2", ["c_typing_rules::arithmetic_of"]),
            ("`<<` or `>>` where an operand is no integer", EXPRESSION, "6.5.7 p2", ["c_typing_rules::shift_of"]),
            ("`+` of a pointer to an object and what is no integer", EXPRESSION, "6.5.6 p2",
             ["c_typing_rules::addition"]),
            ("`-` of a pointer to an object and what is neither an integer nor of the same type", EXPRESSION,
             "6.5.6 p3", ["c_typing_rules::subtraction"]),
            ("`<`, `>`, `<=` or `>=` where the left operand is an integer and the right one is none", EXPRESSION,
             "6.5.8 p2", ["c_typing_rules::comparison_of"]),
            ("`<`, `>`, `<=` or `>=` where the left operand is no integer, and the two are no pointers of one type",
             EXPRESSION, "6.5.8 p2", ["c_typing_rules::ordered_pointers"]),
            ("`==` or `!=` where the operands are neither integers, nor pointers of one type, nor pointers of "
             "which one is to void, nor a pointer and a null pointer constant", EXPRESSION, "6.5.9 p2",
             ["c_typing_rules::equal_pointers"]),
            ("`?:` whose arms are neither integers, nor of one type (void, a struct, a pointer), nor pointers as "
             "for `==`", EXPRESSION, "6.5.15 p3", ["c_typing_rules::choice_met"]),
            ("unary `*` of what is no pointer to an object", EXPRESSION, "6.5.3.2 p2, p4",
             ["c_typing_place_rules::dereference_of"]),
            ("`[ ]` of what is not a pointer to an object and an integer, in either order", EXPRESSION,
             "6.5.2.1 p1", ["c_typing_place_rules::element_by_index"]),
            ("`.` of what is no place of struct type (this language asks for a place, so `(s = t).x` has the "
             "fault)", EXPRESSION, "6.5.2.3 p1", ["c_typing_place_rules::field"]),
            ("`->` of what is no pointer to a complete struct", EXPRESSION, "6.5.2.3 p2", ["c_typing_place_rules::arrow"]),
            ("`++` or `--` in front of what is neither an integer nor a pointer to an object", EXPRESSION,
             "6.5.3.1 p1", ["c_typing_place_rules::step_before"]),
            ("`++` or `--` behind what is neither an integer nor a pointer to an object", EXPRESSION, "6.5.2.4 p1",
             ["c_typing_place_rules::step_behind"]),
            ("a compound assignment whose right side is no integer", EXPRESSION, "6.5.16.2 p1, p2",
             ["c_typing_place_rules::compound_of"]),
            ("a compound assignment whose left side is no integer, but for `+=` and `-=` of a pointer to an object",
             EXPRESSION, "6.5.16.2 p1, p2", ["c_typing_place_rules::moved_place"]),
            ("`sizeof` of what has no complete object type", "the word `sizeof`", "6.5.3.4 p1",
             ["c_typing_place_rules::size"]),
            ("`sizeof` of the name of a function type or of an array without a length", "the word `sizeof`",
             "6.5.3.4 p1", ["c_typing_judgements::size_of_type"]),
            ("the operand of `switch` is no integer", OPERAND, "6.8.4.2 p1", ["c_typing_primary_rules::switch_value"]),
            ("the name of a function stands elsewhere than called, as there are no pointers to functions here; or, "
             "in a tree that the parser does not make, a typedef name stands as an operand", NAME,
             "6.3.2.1 p4, 6.5.1 p2", ["c_typing_judgements::name_of"]),
            ("a comma operator with fewer than two operands; the parser makes no such tree", EXPRESSION, "6.5.17",
             ["c_typing_judgements::commas_between"]),
        ],
    ),
    "NotAssignable": (
        "What is changed is a modifiable lvalue (6.3.2.1 p1): here a place of scalar or struct type, since `const` "
        "has no effect. What `&` takes the address of is a place, whatever its type.",
        [
            ("the left side of `=` is no place of scalar or struct type", "the left side", "6.5.16 p2",
             ["c_typing_place_rules::set"]),
            ("the left side of a compound assignment is no place of scalar or struct type", "the left side",
             "6.5.16 p2", ["c_typing_place_rules::compound"]),
            ("the operand of `++` or `--` in front of it is no place of scalar or struct type", OPERAND,
             "6.5.3.1 p1", ["c_typing_place_rules::step_before"]),
            ("the operand of `++` or `--` behind it is no place of scalar or struct type", OPERAND, "6.5.2.4 p1",
             ["c_typing_place_rules::step_behind"]),
            ("the operand of `&` is no place", OPERAND, "6.5.3.2 p1", ["c_typing_place_rules::address"]),
        ],
    ),
    "BadConversion": (
        "A value of a type is wanted of the right side of `=`, of an argument, of the operand of `return` and of "
        "an initialiser. It has that type or is converted to it as by assignment (6.5.16.1 p1); only a cast "
        "converts more.",
        [
            ("an integer type is wanted, and the value is no integer", VALUE,
             "6.5.2.2 p2, 6.5.16.1 p1, 6.7.8 p11, 6.8.6.4 p3", ["c_typing_rules::as_integer"]),
            ("a pointer type is wanted, and the value has another type and is neither a null pointer constant, nor "
             "a pointer where one of the two is to void", VALUE,
             "6.3.2.3 p1, p3, 6.5.2.2 p2, 6.5.16.1 p1, 6.7.8 p11, 6.8.6.4 p3", ["c_typing_rules::as_pointer"]),
            ("another type is wanted, as a struct's, and the value does not have it", VALUE,
             "6.5.16.1 p1, 6.7.8 p13", ["c_typing_rules::value_for_type"]),
            ("a cast that is neither to void, nor between integers, nor between pointers, nor of a null pointer "
             "constant to a pointer (casts between pointers and integers are left out here)", "the cast's bracket",
             "6.5.4 p2", ["c_typing_rules::cast_ruling"]),
            ("a cast to a function type or to an array without a length", "the cast's bracket", "6.5.4 p2",
             ["c_typing_judgements::cast_to"]),
            ("an expression stands as the initialiser of a function", VALUE, "6.7.8 p3",
             ["c_typing_declarations::refusal_of"]),
        ],
    ),
    "NotFunction": (
        "Only a function is called, by its name, as there are no pointers to functions here. It is judged whatever "
        "the arguments are.",
        [
            ("a called name is that of an object, a local, a parameter or an enumeration constant; or, in a tree that "
             "the parser does not make, of a type", NAME, "6.5.2.2 p1", ["c_typing_judgements::call_by_meaning"]),
        ],
    ),
    "BadCall": (
        "A call has as many arguments as the function has parameters. It is judged where no argument has a fault.",
        [
            ("the number of arguments is not that of the parameters", "the call, at its name", "6.5.2.2 p2",
             ["c_typing_primary_rules::count_arguments"]),
        ],
    ),
    "NoMember": (
        "What stands behind `.` or `->` is the name of a member of the struct, and no two members of a struct have "
        "one name.",
        [
            ("`.` names no member of the struct", EXPRESSION, "6.5.2.3 p1", ["c_typing_place_rules::field_found"]),
            ("`->` names no member of the struct", EXPRESSION, "6.5.2.3 p2", ["c_typing_place_rules::arrow_found"]),
            ("a body declares a member a second time", "the later name", "6.2.3, 6.7 p3, 6.7.2.1",
             ["c_typing_struct_bodies::member_named"]),
        ],
    ),
    "BadLabel": (
        "No two labels of one `switch` are equal. Values are compared in the promoted type of its operand; where "
        "the operand has a fault they are not compared.",
        [
            ("a `case` has the value of an earlier one of the same `switch`", "the word `case`", "6.8.4.2 p3, p5",
             ["c_typing_statement_rules::bad_label"]),
            ("a `switch` has a second `default`", "the word `default`", "6.8.4.2 p3",
             ["c_typing_statement_rules::bad_label"]),
        ],
    ),
    "BadJump": (
        "A `break` leaves the loop or `switch` around it, and a `continue` goes on with the loop around it, so "
        "there has to be one. This is judged by the nesting of the text, also where what stands around has faults.",
        [
            ("a `break` stands in no loop and in no `switch`", "the word `break`", "6.8.6.3 p1",
             ["c_typing_statement_rules::bad_jump"]),
            ("a `continue` stands in no loop", "the word `continue`", "6.8.6.2 p1",
             ["c_typing_statement_rules::bad_jump"]),
        ],
    ),
    "BadReturn": (
        "A function returns a value exactly where its result has a type other than void.",
        [
            ("a `return` with an expression, also with one of type void, stands in a function whose result is void",
             "the word `return`", "6.8.6.4 p1", ["c_typing_statement_rules::bad_return"]),
            ("a `return` without an expression stands in another function", "the word `return`", "6.8.6.4 p1",
             ["c_typing_statement_rules::bad_return"]),
        ],
    ),
    "BadLiteral": (
        "An integer constant has the first type of its list that holds its value. The list goes by its form and "
        "suffix; the longest types are `long` and `unsigned long`.",
        [
            ("no type of its list holds the value of an integer constant", "the constant",
             "6.4.4 p2, 6.4.4.1 p5, p6", ["c_typing_primary_rules::literal_value"]),
            ("a character constant is not spelled as one; the lexer gives no such token", "the constant", "6.4.4.4",
             ["c_typing_primary_rules::character_value"]),
        ],
    ),
    "BadInit": (
        "An initialiser has the form that its object asks for, and no more values than that has room for. It is "
        "judged where none of its parts has a fault.",
        [
            ("a list has more items than the array has elements or the struct members", "the first item too many",
             "6.7.8 p2", ["c_typing_initialisers::list_of"]),
            ("a list stands for a scalar (braces round the value of a scalar are left out here)", "the brace",
             "6.7.8 p11", ["c_typing_initialisers::scalar_list"]),
            ("a text is longer than the array of characters, its zero at the end not counted", "the text",
             "6.7.8 p2, p14", ["c_typing_initialisers::text_value"]),
            ("an expression stands for an array or a struct at file scope, and is no text for an array of "
             "characters", EXPRESSION, "6.7.8 p14, p16", ["c_typing_initialisers::fill_value"]),
            ("a list stands as the initialiser of a function", "the brace", "6.7.8 p3",
             ["c_typing_declarations::refusal_of"]),
            ("a local array has an initialiser (left out here)", "the initialiser", "6.7.8 p14, p16",
             ["c_typing_statement_parts::no_initialiser"]),
        ],
    ),
}

NOTED = {
    "MissingMain": ["c_typing_declarations::is_main", "c_typing_declarations::is_start_of", "c_typing_declarations::is_start",
                    "c_typing_declarations::with_main", "c_typing_declarations::main_seen", "c_typing_units::with_main_in"],
    "Redeclared": ["c_typing_struct_bodies::with_body", "c_typing_judgements::new_struct_type", "c_typing_unit_names::named_first",
                   "c_typing_units::builtin_declared"],
    "NotDefined": ["c_typing_definitions::is_definition", "c_typing_definitions::object_seen", "c_typing_definitions::function_seen",
                   "c_typing_state::with_use", "c_typing_judgements::use_of_undefined", "c_typing_judgements::name_of",
                   "c_typing_judgements::call_by_meaning", "c_typing_unit_names::undefined_name", "c_typing_unit_names::object_name",
                   "c_typing_unit_names::function_name", "c_typing_unit_names::value_name"],
    "NotAssignable": ["c_typing_rules::rvalue", "c_typing_place_rules::pointed_place", "c_typing_place_rules::place_of_member",
                      "c_typing_primary_rules::local", "c_typing_primary_rules::static_object"],
}
