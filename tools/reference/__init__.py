"""The reference pages: `definitions` and `specs` read what contracts cite, `project` what documents
and tests say of an item, `pages` writes the site, and `check` looks for what it lacks."""
