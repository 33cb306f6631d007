/* The tags of an XML text (xml.c). */
#ifndef INSPECT_XML_H
#define INSPECT_XML_H

#include "text.h"

/* A tag that begins an element, or is one. */
struct tag {
	struct name name;
	char *attributes, *end; /* from behind its name to its `>` */
};

/* Finds the next such tag before `end`, and moves `at` behind it; false if there is none. What looks like a tag in a
 * comment, a CDATA section, a processing instruction, a document type or a value is none. */
bool xml_next(char **at, char *end, struct tag *tag);

/* The value of an attribute; none if the tag does not have it. References to characters that a name may have are
 * replaced by these, in the text too. All others stay, and no name has their `&`. */
struct name xml_attribute(const struct tag *tag, const char *name);

#endif
