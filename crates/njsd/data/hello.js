function hello(r) { r.return(200, "Hello world!"); } export default {hello};
