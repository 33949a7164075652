"""Django with a live store: the translations of its text domain `django` are replaced while it runs.

    INSTALLED_APPS = [..., "kobdzila.django"]
    LOCALE_PATHS = [BASE_DIR / "locale"]

The folders of LOCALE_PATHS are watched: their PO and MO files are loaded when they change. Everything else comes from
Django, as before: the translations of Django itself, of the applications, and of the default language. `gettext`,
templates, LocaleMiddleware and lazy strings stay as they are, and kobdzila's own lazy messages look up in Django's
translations. A request has one version of each folder.

Settings, all optional:

    KOBDZILA_STORE = "mysite.texts.store"    a kobdzila.Store that you load yourself, in place of LOCALE_PATHS
    KOBDZILA_WATCH = {"every": 5.0}          options of Store.watch
"""
