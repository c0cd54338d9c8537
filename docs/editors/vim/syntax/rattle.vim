runtime! syntax/rust.vim
syntax keyword rustKeyword ghost requires ensures
