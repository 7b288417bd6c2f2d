#compdef ringplan-run ringplan-import ringplan-merge ringplan-break
# By python3-argcomplete, if it is installed.
autoload -U bashcompinit && bashcompinit
eval "$(register-python-argcomplete $service 2> /dev/null)"
(( ! $+functions[_python_argcomplete] )) || _bash_complete -o nospace -o default -F _python_argcomplete
