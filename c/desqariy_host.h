/* What the headers of the queue and of the receiver share: results that must be used, a layout that the linker compares, names of numbers. */
#ifndef DSQ_DESQARIY_HOST_H
#define DSQ_DESQARIY_HOST_H

/* A result must be used: a refusal that nobody looks at is a message that nobody sends. */
#if defined(__cplusplus) && __cplusplus >= 201703L
#define DSQ_MUST_USE [[nodiscard]]
#elif defined(__GNUC__)
#define DSQ_MUST_USE __attribute__((warn_unused_result))
#else
#define DSQ_MUST_USE
#endif

/* What stays in an object that nobody names. */
#if defined(__has_attribute)
#if __has_attribute(retain)
#define DSQ_RETAINED __attribute__((retain, used, unused))
#endif
#endif
#if !defined(DSQ_RETAINED) && defined(__GNUC__)
#define DSQ_RETAINED __attribute__((used, unused))
#endif

/* Every object that was compiled with a header names the function of the library that has the header's layout in its name. A linker that finds
 * it undefined has a library of another layout before it: take the header that belongs to the library, and compile anew. */
#if defined(DSQ_RETAINED)
#define DSQ_LINKED_WITH(layout_function) DSQ_RETAINED static uint64_t (*const layout_function##_of_this_header)(void) = layout_function
#else
#define DSQ_LINKED_WITH(layout_function) uint64_t layout_function(void)
#endif

/* Rows of a table, each a number's name in its enum and a text, as the cases of a function that answers a string for every number. */
#define DSQ_NAME_CASE(name, text) \
    case name:                    \
        return #name;
#define DSQ_TEXT_CASE(name, text) \
    case name:                    \
        return text;
#define DSQ_STRING_OF(number, table, string_case, otherwise) \
    switch (number) {                                        \
        table(string_case) default : return otherwise;       \
    }

#endif
