"""Tools for people who write boards: they read inputs, `check` texts and logs, and are no part of what is proved."""
