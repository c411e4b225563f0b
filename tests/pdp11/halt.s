; Does nothing: what the boot code leaves can be looked at.
        halt
