# Completion of quorum_cli for bash.
_quorum_cli() {
  local word=${COMP_WORDS[COMP_CWORD]} before=${COMP_WORDS[COMP_CWORD - 1]} options=''
  if [ "$COMP_CWORD" = 1 ]; then
    mapfile -t COMPREPLY < <(compgen -W 'show closure greatest intersect available dset blocks vblocks splits blocking check export trial check-lrat quorums least org-blocking whatif' -- "$word")
    return
  fi
  case ${COMP_WORDS[1]} in
    show) options='--progress' ;;
    closure) options='--node --progress' ;;
    greatest) options='--from --faulty --orgs --faulty-orgs --progress' ;;
    intersect) options='--budget --from --faulty --orgs --faulty-orgs --seconds --progress' ;;
    available) options='--set --from --progress' ;;
    dset) options='--set --from --budget --seconds --progress' ;;
    blocks) options='--set --from --faulty --orgs --faulty-orgs --progress' ;;
    vblocks) options='--node --set --progress' ;;
    splits) options='--set --budget --from --faulty --orgs --faulty-orgs --seconds --progress' ;;
    blocking) options='--budget --from --faulty --orgs --faulty-orgs --seconds --progress' ;;
    check) options='--orgs --progress' ;;
    export) options='--formula --from --faulty --orgs --faulty-orgs --progress' ;;
    trial) options='--budget --seconds --progress' ;;
    check-lrat) options='--formula --from --faulty --orgs --faulty-orgs --progress' ;;
    quorums) options='--budget --from --faulty --orgs --faulty-orgs --seconds --progress' ;;
    least) options='--budget --from --faulty --orgs --faulty-orgs --seconds --progress' ;;
    org-blocking) options='--orgs --from --faulty --faulty-orgs --budget --seconds --progress' ;;
    whatif) options='--set --progress' ;;
  esac
  case $before in
  --orgs) mapfile -t COMPREPLY < <(compgen -f -- "$word") ;;
  --node|--from|--faulty|--faulty-orgs|--set|--budget|--formula|--seconds) COMPREPLY=() ;;
  *)
    if [[ $word == -* ]]; then
      mapfile -t COMPREPLY < <(compgen -W "$options" -- "$word")
    else
      mapfile -t COMPREPLY < <(compgen -f -- "$word")
    fi
    ;;
  esac
}
complete -o filenames -F _quorum_cli quorum_cli
