"""h2audit-page: shows a report of h2audit on one HTML page that needs no network, server or installation."""
