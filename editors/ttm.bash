# Completion of ./ttm for bash: source this file. Made by tools/gate/editors.py of tools/launcher/commands.txt.
_ttm() {
  local word=${COMP_WORDS[COMP_CWORD]}
  local words=
  case $COMP_CWORD in
    1) words='sim run gen check explain picture stats trace play schedule shuffle outcomes test --build --program --help --version' ;;
    2)
      case ${COMP_WORDS[1]} in
        sim) words='--turns' ;;
        picture) words='--from --to' ;;
        stats) words='json' ;;
      esac
      ;;
  esac
  COMPREPLY=($(compgen -W "$words" -- "$word"))
}
complete -o default -F _ttm ttm ./ttm
