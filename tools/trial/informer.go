// Informers of client-go for pods, config maps and deployments at a server without TLS: informer PORT. For each line on standard input
// it prints one line of JSON: of each resource the objects in its cache by key, and how many events it was told.
package main

import (
	"bufio"
	"encoding/json"
	"fmt"
	"os"
	"sync/atomic"
	"time"

	"k8s.io/client-go/informers"
	"k8s.io/client-go/kubernetes"
	"k8s.io/client-go/rest"
	"k8s.io/client-go/tools/cache"
)

func main() {
	client, err := kubernetes.NewForConfig(&rest.Config{Host: "http://127.0.0.1:" + os.Args[1], QPS: 100, Burst: 100})
	if err != nil {
		panic(err)
	}
	factory := informers.NewSharedInformerFactory(client, 10*time.Hour)
	all := map[string]cache.SharedIndexInformer{
		"pods": factory.Core().V1().Pods().Informer(), "configmaps": factory.Core().V1().ConfigMaps().Informer(),
		"deployments": factory.Apps().V1().Deployments().Informer()}
	counts := map[string]*int64{}
	for name, one := range all {
		count := new(int64)
		counts[name] = count
		one.AddEventHandler(cache.ResourceEventHandlerFuncs{
			AddFunc:    func(interface{}) { atomic.AddInt64(count, 1) },
			UpdateFunc: func(interface{}, interface{}) { atomic.AddInt64(count, 1) },
			DeleteFunc: func(interface{}) { atomic.AddInt64(count, 1) }})
	}
	stop := make(chan struct{})
	factory.Start(stop)
	for name, is := range factory.WaitForCacheSync(stop) {
		fmt.Fprintln(os.Stderr, name, is)
	}
	lines := bufio.NewScanner(os.Stdin)
	out := json.NewEncoder(os.Stdout)
	out.SetEscapeHTML(false)
	for lines.Scan() {
		told := map[string]interface{}{}
		for name, one := range all {
			objects := map[string]interface{}{}
			for _, key := range one.GetStore().ListKeys() {
				object, _, _ := one.GetStore().GetByKey(key)
				objects[key] = object
			}
			told[name] = map[string]interface{}{"objects": objects, "events": atomic.LoadInt64(counts[name])}
		}
		if err := out.Encode(told); err != nil {
			panic(err)
		}
	}
}
