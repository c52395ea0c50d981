# Completion of the arguments of `mdb` in bash. Read it in ~/.bashrc:  . PATH/examples/completion.bash

_mdb() {
    local offered='' word=${COMP_WORDS[COMP_CWORD]} command=${COMP_WORDS[2]-}
    COMPREPLY=()
    case $COMP_CWORD:$command in
        1:*)
            [[ $word == -* ]] && offered='- --help --version'
            mapfile -t COMPREPLY < <(compgen -W "$offered" -- "$word"; compgen -d -- "$word")
            return
            ;;
        2:*) offered='root apply get prove range changes verify' ;;
        3:root | 3:apply | 3:get | 3:prove | 3:range | 3:changes | 3:verify) offered='2 4 16 256' ;;
        4:prove | 4:range | 4:changes | 5:changes) offered='now empty' ;;
    esac
    # where one of these is the command, nothing is offered in the place of a key
    mapfile -t COMPREPLY < <(compgen -W "$offered" -- "$word")
}

complete -o filenames -F _mdb mdb ./mdb
