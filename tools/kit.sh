# Sourced by the commands at the top: sets RT to the kit's command.
# The kit is found on PATH, or by RATTLE_KIT, which names its folder or its folder bin. `without_kit` may say what there is without it.
if [ -n "${RATTLE_KIT:-}" ] && [ -x "$RATTLE_KIT/bin/rt" ]; then
  RT="$RATTLE_KIT/bin/rt"
elif [ -n "${RATTLE_KIT:-}" ] && [ -x "$RATTLE_KIT/rt" ]; then
  RT="$RATTLE_KIT/rt"
elif command -v rt >/dev/null 2>&1; then
  RT=$(command -v rt)
else
  echo "the Rattle kit is missing: put its command rt on PATH, or set RATTLE_KIT to its folder${without_kit:+; $without_kit}" >&2 || :
  exit 127
fi
