"""The page of tools/page: what is gathered of a cartridge and a run, and each part of the page that shows it."""
