"""Signed messages of the RPKI's publication and provisioning protocols (RFC 8181, 6492), their setup messages (RFC 8183), and certificate
requests (RFC 6487). A verified library decides; `cryptography`, or what else is handed in, says which signatures hold, and signs.

    >>> import calmizsed
    >>> key = calmizsed.keys.PrivateKey.generate()
    >>> query = calmizsed.publication.ListQuery().to_xml()
    >>> message = calmizsed.create(calmizsed.Kind.PUBLICATION, query, key, calmizsed.now())
    >>> calmizsed.receive(calmizsed.Kind.PUBLICATION, message, [key.public_key], calmizsed.now()).text == query
    True

`receive`, `create`, `inspect`, `explain`, `content` and `read` are on signed messages; the modules `setup`, `anchor`, `request`,
`publication`, `provisioning` and `keys` have the rest. Errors are `CalmizsedError`s, with name, status and check.
"""

from calmizsed import anchor, errors, files, keys, provisioning, publication, request, setup
from calmizsed._library import library
from calmizsed._messages import CheckResult, Inspection, Receipt, content, create, explain, inspect, read, receive
from calmizsed._values import Kind, SetupKind, now
from calmizsed._version import VERSION as __version__
from calmizsed.errors import CalmizsedError, Refusal

__all__ = [
    "CalmizsedError", "CheckResult", "Inspection", "Kind", "Receipt", "Refusal", "SetupKind", "__version__", "anchor", "content", "create",
    "errors", "explain", "files", "inspect", "keys", "library", "now", "provisioning", "publication", "read", "receive", "request", "setup",
]
