"""The checks of docs/check. Each is a function that yields a sentence for each difference, and whose docstring says what must hold."""
from . import claims, documents, layout, printed, scripts, style, usage

# what docs/check tries without a name
ON = [
    claims.edits,
    claims.calls,
    claims.readme,
    layout.crates,
    layout.layers,
    layout.imports,
    usage.options,
    usage.modes,
    usage.causes,
    usage.version,
    documents.specs,
    documents.links,
    documents.pages,
    documents.sizes,
    documents.repeats,
    scripts.scripts,
    printed.printed,
    printed.archive,
    style.words,
    style.asserts,
]
# what --verbose adds to a check
VERBOSE = {"sizes": documents.all_sizes}
