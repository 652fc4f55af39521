// Attached files.
#ifndef ATTACHMENTS_H
#define ATTACHMENTS_H

#include "parts.h"

// A line for each attached file: the address of its header, its name and type, and where its bytes
// are.
void tell_attachments(const part *attachments);

// The same as JSON, with its uid.
void json_attachments(const part *attachments);

#endif
